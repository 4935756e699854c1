-- A book of version 1: that of example 16 (examples/README.md). 24011 is closed, and no tax on commission was known.
-- It has the first ten tables of docs/TABLES.md, which says what their columns mean. Days are counted from 1970-01-01;
-- the business day of the sales and memos is 19727, which is 2024-01-05.
BEGIN;

CREATE TABLE meta (id INT NOT NULL PRIMARY KEY, version INTEGER NOT NULL, day INTEGER NOT NULL, closed INTEGER NOT
  NULL) STRICT;
CREATE TABLE terms (id INT NOT NULL PRIMARY KEY, currency TEXT NOT NULL, review INTEGER NOT NULL, documents INTEGER
  NOT NULL) STRICT;
CREATE TABLE airline (code TEXT NOT NULL PRIMARY KEY, place INTEGER, token TEXT) STRICT;
CREATE TABLE rate (airline TEXT NOT NULL, begins INTEGER NOT NULL, place INTEGER NOT NULL, hundredths INTEGER NOT
  NULL, PRIMARY KEY (airline, begins)) STRICT;
CREATE TABLE period (code TEXT NOT NULL PRIMARY KEY, place INTEGER NOT NULL, begins INTEGER NOT NULL, ends INTEGER NOT
  NULL, remit INTEGER NOT NULL) STRICT;
CREATE TABLE agent (code TEXT NOT NULL PRIMARY KEY, token TEXT NOT NULL) STRICT;
CREATE TABLE stock (agent TEXT NOT NULL REFERENCES agent (code), lo TEXT NOT NULL, hi TEXT NOT NULL, PRIMARY KEY
  (agent, lo)) STRICT;
CREATE TABLE item (agent TEXT NOT NULL REFERENCES agent (code), number TEXT NOT NULL, canx INTEGER NOT NULL, airline
  TEXT NOT NULL, code TEXT NOT NULL, issued INTEGER NOT NULL, period TEXT NOT NULL REFERENCES period (code), alive
  INTEGER NOT NULL, name TEXT NOT NULL, fare INTEGER, taxes TEXT, rate INTEGER, commission INTEGER, rel_airline TEXT,
  rel_number TEXT, ca INTEGER, cc INTEGER, ex INTEGER, vendor TEXT, PRIMARY KEY (agent, number, canx)) STRICT;
CREATE TABLE memo (airline TEXT NOT NULL, number TEXT NOT NULL, agent TEXT NOT NULL REFERENCES agent (code), kind TEXT
  NOT NULL, amount INTEGER NOT NULL, first_amount INTEGER NOT NULL, reason TEXT NOT NULL, issued INTEGER NOT NULL,
  state TEXT NOT NULL, billed TEXT REFERENCES period (code), PRIMARY KEY (airline, number)) STRICT;
CREATE TABLE tally (agent TEXT NOT NULL, airline TEXT NOT NULL, period TEXT NOT NULL, accepted INTEGER NOT NULL,
  living INTEGER NOT NULL, canx INTEGER NOT NULL, memo_count INTEGER NOT NULL, cash INTEGER NOT NULL, credit INTEGER
  NOT NULL, commission INTEGER NOT NULL, memos INTEGER NOT NULL, PRIMARY KEY (agent, airline, period)) STRICT;

INSERT INTO meta VALUES (1, 1, 19738, 1); -- 2024-01-16, and 24011 is closed
INSERT INTO terms VALUES (1, 'EUR', 14, 1000);
INSERT INTO airline VALUES ('125', 1, 'airlinetoken0125'), ('220', 2, 'airlinetoken0220');
INSERT INTO rate VALUES ('125', 19723, 1, 500);
INSERT INTO period VALUES
  ('24011', 1, 19723, 19737, 19768), -- 2024-01-01 to 2024-01-15, remitted on 2024-02-15
  ('24012', 2, 19738, 19753, 19782); -- 2024-01-16 to 2024-01-31, remitted on 2024-02-29
INSERT INTO agent VALUES ('12345675', 'agenttoken000001'), ('76543213', 'agenttoken000002');
INSERT INTO stock VALUES
  ('12345675', '1300000000', '1300000099'),
  ('76543213', '1400000000', '1400000099');
INSERT INTO item VALUES
  ('12345675', '1300000001', 0, '125', 'TKTT', 19727, '24011', 1, printf('%-49s', 'DOE/JANE'), 20000,
    printf('%-78s', 'RA0000000350{'), 500, 1000, NULL, NULL, 23500, NULL, NULL, NULL),
  ('12345675', '1300000008', 0, '220', 'TKTT', 19727, '24011', 1, printf('%-49s', 'DOE/JANE'), 10000,
    printf('%78s', ''), 0, 0, NULL, NULL, NULL, 10000, NULL, 'VI');
INSERT INTO memo VALUES
  ('125', '6000000001', '76543213', 'ACMA', 5000, 5000, 'RATE OF MARCH', 19727, 'open', '24011'),
  ('220', '7000000001', '12345675', 'ADMA', 3000, 3000, 'RATE OF MARCH', 19727, 'agreed', '24011');
INSERT INTO tally VALUES
  ('12345675', '125', '24011', 1, 1, 0, 0, 23500, 0, 1000, 0),
  ('12345675', '220', '24011', 1, 1, 0, 1, 0, 10000, 0, 3000),
  ('76543213', '125', '24011', 0, 0, 0, 1, 0, 0, 0, -5000);
COMMIT;
