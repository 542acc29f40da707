-- The numbers of a fleet, as SQL: the same as fleet_dask.py prints. It needs two tables (fleet/README.md says how to fill them):
--
--   lines(file, guest, salt, pages, sample, digest, copies)   all lines of all digests; `file` numbers the files, and all numbers
--                                                             are BIGINT
--   zeros(zero_digest)                                        the digest of a page of zeros under each salt, as zeros.py prints it
--
-- What could be reclaimed (reclaimed) has three parts: zero_reclaimed, between_part and within_part.
--
-- Columns whose names end with _error are standard errors (within_error is at least that); they are 0 where the sample is 1. They are computed in double precision.

-- Each content of the fleet: its copies in all guests, how many guests have it, and whether it is zeros. A content of zeros stands
-- for itself; each other one for as many as the sample says (`weight`), which adds so much to the variance of a sum (`spread`).
CREATE VIEW contents AS
SELECT digest, all_copies, guests, zero,
    CASE WHEN zero = 1 THEN 1 ELSE every END AS weight,
    CASE WHEN zero = 1 THEN 0 ELSE every * (every - 1) END AS spread
FROM (
    SELECT digest, SUM(copies) AS all_copies, SUM(one) AS guests, MAX(zeros) AS zero, MAX(sample) AS every
    FROM (
        SELECT digest, copies, 1 AS one, 0 AS zeros, sample FROM lines
        UNION ALL
        SELECT zero_digest AS digest, 0 AS copies, 0 AS one, 1 AS zeros, 0 AS sample FROM zeros
    ) AS listed
    GROUP BY digest
) AS counted
WHERE guests > 0;

-- Each line, with what the fleet has of its content.
CREATE VIEW known_lines AS
SELECT file, guest, salt, pages, copies, all_copies, zero, weight, spread
FROM lines JOIN contents USING (digest);

CREATE VIEW guest_numbers AS
SELECT file, guest, salt, pages,
    SUM(CASE WHEN zero = 1 THEN copies ELSE 0 END) AS zero_pages,
    SUM(weight) AS distinct_contents,
    SUM(CASE WHEN all_copies > 1 THEN weight * copies ELSE 0 END) AS shared_pages,
    SUM(weight * (copies - 1)) AS alone_pages,
    SQRT(SUM(spread * 1e0)) AS distinct_error,
    SQRT(SUM(CASE WHEN all_copies > 1 THEN spread * 1e0 * copies * copies ELSE 0e0 END)) AS shared_error,
    SQRT(SUM(spread * 1e0 * (copies - 1) * (copies - 1))) AS alone_error
FROM known_lines
GROUP BY file, guest, salt, pages;

CREATE VIEW total_numbers AS
SELECT pages, zero_pages, shared_pages, frames, reclaimed, zero_reclaimed, between_guests, between_part, within_part,
    shared_error, frames_error, reclaimed_error, between_error, within_error
FROM (
    SELECT
        SUM(CASE WHEN all_copies > 1 THEN weight * all_copies ELSE 0 END) AS shared_pages,
        SUM(weight) AS frames,
        SUM(weight * (all_copies - 1)) AS reclaimed,
        SUM(CASE WHEN zero = 1 THEN all_copies - 1 ELSE 0 END) AS zero_reclaimed,
        SUM(weight * (guests - 1)) AS between_guests,
        SUM(CASE WHEN zero = 1 THEN 0 ELSE weight * (guests - 1) END) AS between_part,
        SUM(CASE WHEN zero = 1 THEN 0 ELSE weight * (all_copies - guests) END) AS within_part,
        SQRT(SUM(CASE WHEN all_copies > 1 THEN spread * 1e0 * all_copies * all_copies ELSE 0e0 END)) AS shared_error,
        SQRT(SUM(spread * 1e0)) AS frames_error,
        SQRT(SUM(spread * 1e0 * (all_copies - 1) * (all_copies - 1))) AS reclaimed_error,
        SQRT(SUM(spread * 1e0 * (guests - 1) * (guests - 1))) AS between_error,
        SQRT(SUM(spread * 1e0 * ((all_copies - 1) * 1e0 * (all_copies - 1) - (guests - 1) * 1e0 * (guests - 1)))) AS within_error
    FROM contents
) AS of_contents
CROSS JOIN (
    SELECT SUM(pages) AS pages, SUM(zero_pages) AS zero_pages
    FROM (SELECT pages, zero_pages FROM guest_numbers) AS of_each
) AS of_guests;

-- The classes of copies: 1, 2, 3 to 4, 5 to 8 and so on, each by its greatest number.
CREATE VIEW copies_table AS
SELECT at_most, SUM(weight) AS contents, SUM(weight * all_copies) AS pages,
    SQRT(SUM(spread * 1e0)) AS contents_error,
    SQRT(SUM(spread * 1e0 * all_copies * all_copies)) AS pages_error
FROM (
    SELECT all_copies, weight, spread,
    CASE WHEN all_copies <= 1 THEN 1 WHEN all_copies <= 2 THEN 2 WHEN all_copies <= 4 THEN 4 WHEN all_copies <= 8 THEN 8
        WHEN all_copies <= 16 THEN 16 WHEN all_copies <= 32 THEN 32 WHEN all_copies <= 64 THEN 64 WHEN all_copies <= 128 THEN 128
        WHEN all_copies <= 256 THEN 256 WHEN all_copies <= 512 THEN 512 WHEN all_copies <= 1024 THEN 1024
        WHEN all_copies <= 2048 THEN 2048 WHEN all_copies <= 4096 THEN 4096 WHEN all_copies <= 8192 THEN 8192
        WHEN all_copies <= 16384 THEN 16384 WHEN all_copies <= 32768 THEN 32768 WHEN all_copies <= 65536 THEN 65536
        WHEN all_copies <= 131072 THEN 131072 WHEN all_copies <= 262144 THEN 262144 WHEN all_copies <= 524288 THEN 524288
        WHEN all_copies <= 1048576 THEN 1048576 WHEN all_copies <= 2097152 THEN 2097152 WHEN all_copies <= 4194304 THEN 4194304
        WHEN all_copies <= 8388608 THEN 8388608 WHEN all_copies <= 16777216 THEN 16777216 WHEN all_copies <= 33554432 THEN 33554432
        WHEN all_copies <= 67108864 THEN 67108864 WHEN all_copies <= 134217728 THEN 134217728
        WHEN all_copies <= 268435456 THEN 268435456 WHEN all_copies <= 536870912 THEN 536870912
        WHEN all_copies <= 1073741824 THEN 1073741824 WHEN all_copies <= 2147483648 THEN 2147483648
        WHEN all_copies <= 4294967296 THEN 4294967296 WHEN all_copies <= 8589934592 THEN 8589934592
        WHEN all_copies <= 17179869184 THEN 17179869184 WHEN all_copies <= 34359738368 THEN 34359738368
        WHEN all_copies <= 68719476736 THEN 68719476736 WHEN all_copies <= 137438953472 THEN 137438953472
        WHEN all_copies <= 274877906944 THEN 274877906944 WHEN all_copies <= 549755813888 THEN 549755813888
        WHEN all_copies <= 1099511627776 THEN 1099511627776 WHEN all_copies <= 2199023255552 THEN 2199023255552
        WHEN all_copies <= 4398046511104 THEN 4398046511104 WHEN all_copies <= 8796093022208 THEN 8796093022208
        WHEN all_copies <= 17592186044416 THEN 17592186044416 WHEN all_copies <= 35184372088832 THEN 35184372088832
        WHEN all_copies <= 70368744177664 THEN 70368744177664 WHEN all_copies <= 140737488355328 THEN 140737488355328
        WHEN all_copies <= 281474976710656 THEN 281474976710656 WHEN all_copies <= 562949953421312 THEN 562949953421312
        WHEN all_copies <= 1125899906842624 THEN 1125899906842624 WHEN all_copies <= 2251799813685248 THEN 2251799813685248
        WHEN all_copies <= 4503599627370496 THEN 4503599627370496 WHEN all_copies <= 9007199254740992 THEN 9007199254740992
        WHEN all_copies <= 18014398509481984 THEN 18014398509481984 WHEN all_copies <= 36028797018963968 THEN 36028797018963968
        WHEN all_copies <= 72057594037927936 THEN 72057594037927936 WHEN all_copies <= 144115188075855872 THEN 144115188075855872
        WHEN all_copies <= 288230376151711744 THEN 288230376151711744 WHEN all_copies <= 576460752303423488 THEN 576460752303423488
        WHEN all_copies <= 1152921504606846976 THEN 1152921504606846976
        WHEN all_copies <= 2305843009213693952 THEN 2305843009213693952
        WHEN all_copies <= 4611686018427387904 THEN 4611686018427387904 END AS at_most
    FROM contents
) AS classed
GROUP BY at_most;

SELECT * FROM guest_numbers ORDER BY file;
SELECT * FROM total_numbers;
SELECT * FROM copies_table ORDER BY at_most;
