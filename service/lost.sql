-- Lists the work that a restored backup lacks, as requests of the office, one in each line.
-- In the folder of the restored shop.db: sqlite3 old/shop.db <lost.sql >requests
-- It changes no row. In another folder it creates an empty shop.db.
-- If both files are the same, it fails.
-- docs/OPERATING.md, "Restore a backup", says how to send the requests.
-- Tables of the old file are named main.NAME, because SQLite would take a missing one from the copy.
ATTACH 'shop.db' AS copy;

CREATE TEMP TABLE two_files (differ CONSTRAINT "shop.db is the old file" CHECK (differ));
INSERT INTO two_files SELECT old.file <> new.file FROM pragma_database_list old JOIN pragma_database_list new
  WHERE old.name = 'main' AND new.name = 'copy';

-- Blanks that are charged only in the old file.
SELECT '{"do":"discard","blank":' || serial || '}' FROM main.blank
  WHERE serial NOT IN (SELECT serial FROM copy.blank) ORDER BY serial;

-- Records that are good (4) or withdrawn (3) only in the old file.
SELECT '{"do":"withdraw","batch":"' || batch.name || '","record":"' || record.name || '"}'
  FROM main.record JOIN main.batch ON batch.id = record.batch
  WHERE record.state IN (3, 4) AND (batch.name, record.name) NOT IN
    (SELECT b.name, r.name FROM copy.record r JOIN copy.batch b ON b.id = r.batch
      WHERE r.state IN (3, 4))
  ORDER BY batch.id, record.place;
