-- What to ask of a survey: sqlite3 firm.db <examples/survey.sql, after `knot survey stores/ --into firm.db`.
.mode column

-- stores that a clean-up would make smaller, and by how many bytes
SELECT name, copies, 24 * copies AS bytes FROM stores WHERE copies > 0 ORDER BY copies DESC LIMIT 20;

-- tiles that are in several stores, byte for byte
SELECT format, hex(block) AS block, COUNT(DISTINCT store) AS stores, COUNT(*) AS records
FROM copies_across_stores GROUP BY format, block ORDER BY records DESC LIMIT 20;

-- damaged records, store by store
SELECT name, COUNT(*) AS damaged FROM damaged_records GROUP BY name ORDER BY damaged DESC LIMIT 20;
