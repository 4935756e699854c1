"""What the tests share. Each reader and each writer stands here once."""
