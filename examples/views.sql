-- What examples/sql reckons with the tables of statements.
CREATE INDEX entry_by_number ON entry (statement, number);

CREATE VIEW positions_by_firm AS
SELECT statement, firm, instrument, sum(long) AS long, sum(short) AS short, sum(long) - sum(short) AS net
FROM position
GROUP BY statement, firm, instrument;

-- A claim's month is that of its entry; its taker pays, and its giver receives.
CREATE VIEW fees_by_month AS
WITH claim AS (
    SELECT hop.*, substr(time, 1, 4) || '-' || substr(time, 5, 2) AS month
    FROM hop JOIN entry ON entry.statement = hop.statement AND entry.number = hop.entry
), side AS (
    SELECT statement, month, taker AS firm, fee AS paid, 0 AS received FROM claim
    UNION ALL SELECT statement, month, giver, 0, fee FROM claim
)
SELECT statement, month, firm, sum(paid) AS paid, sum(received) AS received
FROM side
GROUP BY statement, month, firm;

-- (the time is that of the entry with the largest number: so SQLite has a column beside max)
CREATE VIEW ageing_offers AS
WITH now AS (SELECT statement, max(number), time FROM entry GROUP BY statement)
SELECT offer.*,
    strftime('%s', substr(time, 1, 4) || '-' || substr(time, 5, 2) || '-' || substr(time, 7, 2) || ' ' || substr(time, 10))
    - strftime('%s', substr(since, 1, 4) || '-' || substr(since, 5, 2) || '-' || substr(since, 7, 2) || ' ' || substr(since, 10))
    AS seconds
FROM offer JOIN now ON now.statement = offer.statement
ORDER BY offer.statement, since;
