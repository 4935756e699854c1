#!/usr/bin/perl
# Makes a month in an office by the client that OpenAPI::Client generates of a description. It prints for each call the
# operation, the status and the body of the reply, records of 136 characters apart. Where a reply is not as the description
# has it, a line says so.
#
# usage: tests/docs/month.pl DESCRIPTION ADDRESS HOT    (the HOT file of the airline is written to HOT; tests/docs/openapi.py runs it,
#                                                        and compares what it prints with month.txt)
use strict;
use warnings;
use Mojo::File;
use Mojo::JSON qw(decode_json);
use OpenAPI::Client;

my ($description, $address, $hot) = @ARGV;
my $samples = Mojo::File->new($description)->dirname->sibling('samples');
my %token = (office => 'officetoken00001', agents => 'agenttoken000001', airlines => 'airlinetoken0001');
my $client = OpenAPI::Client->new($description, base_url => $address);
my $january = {agent => '12345675', period => '24011'};
my $range = {agent => '12345675', first => '1300000000', last => '1300000099'};

# the token of a caller is that of the first word of the path
$client->on(after_build_tx => sub {
    my $request = $_[1]->req;
    my ($caller) = $request->url->path->parts->[0];
    $request->headers->header('Bsp-Token' => $token{$caller});
});

sub sample { $samples->child($_[0])->slurp }

# What is wrong with a reply by the description.
sub faults {
    my ($operation, $tx) = @_;
    my ($route) = grep { $_->{operation_id} eq $operation } @{$client->validator->routes};
    my @responses = (paths => @$route{qw(path method)}, 'responses');
    my $response = $client->validator->get([@responses, $tx->res->code]) || $client->validator->get([@responses, 'default']);
    my $media = $tx->res->headers->content_type;
    my $content = $response->{content}{$media} or return "no $media";
    my $value = $media eq 'application/json' ? decode_json($tx->res->body) : $tx->res->body;
    return $client->validator->validate($value, $content->{schema});
}

# Calls an operation with the values of its path and its body, and prints the reply.
sub ask {
    my ($operation, $values, @body) = @_;
    my $tx = $client->call($operation, $values, @body);
    my $sent = $tx->remote_port ? '' : ' not sent';
    my $text = $sent ? '' : $tx->res->body;
    print "$operation$sent " . $tx->res->code . "\n";
    print "  $_\n" for grep { length != 136 } split /\n/, $text;
    print "  the description has: $_\n" for $sent ? () : faults($operation, $tx);
    return $text;
}

ask('publishPlan', {}, body => sample('plan.toml'));
ask('setDay', {}, json => {day => '2024-00-05'});
ask('setDay', {}, json => {day => '2024-01-05'});
ask('registerAgent', {}, json => {agent => '12345675', token => $token{agents}});
ask('registerAirline', {}, json => {airline => '125', token => $token{airlines}});
ask('allotStock', {}, json => $range);
ask('reportAsAgent', {agent => '12345675'}, body => sample('sale.ret'));
ask('reportAsAgent', {agent => '12345675'}, body => sample('first-report.ret'));
ask('reportAsAgent', {agent => '12345675'}, body => 'x');
ask('getStock', {agent => '12345675'});
ask('getDocument', {agent => '12345675', number => '1300000001'});
ask('issueMemo', {airline => '125'}, json => {agent => '12345675', amount => 5000, document => '6000000001', kind => 'ADMA', reason => 'fare'});
ask('listMemos', {agent => '12345675'});
ask('agreeToMemo', {agent => '12345675'}, json => {airline => '125', document => '6000000001'});
ask('getStatement', $january);
ask('setDay', {}, json => {day => '2024-01-16'});
ask('closePeriod', {}, json => {period => '24011'});
ask('listIssuedMemos', {airline => '125'});
ask('getPeriod', $january);
ask('getStatement', $january);
ask('getSettlement', {period => '24011'});
ask('setDay', {}, json => {day => '2024-02-01'});
ask('closePeriod', {}, json => {period => '24012'});
ask('getSettlement', {period => '24012'});
Mojo::File->new($hot)->spurt(ask('getHot', {airline => '125', period => '24011'}));
