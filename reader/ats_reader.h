/* The checks of what an archive's server sends: seven calls, and two for words. README.md says how to link, and what is
 * proved.
 *
 * Never pass a null pointer, even with 0 bytes. Pointers are aligned as their types are. What a call writes overlaps
 * nothing else that it is passed, and nobody else changes what it is passed before it returns: no file that is mapped,
 * no memory that the server can write to. Nothing is kept after a call, and nothing has to be freed. Calls may run in
 * several threads at the same time, each with buffers of its own to write to; none may run in a signal handler. */
#ifndef ATS_READER_H
#define ATS_READER_H
#include <stddef.h>
#include <stdint.h>
#ifdef __cplusplus
extern "C" {
#endif

#define ATS_READER_VERSION 1

/* A document of an answer: its number in the archive, from 0, and bounds of its score. */
struct ats_row { uint64_t doc, lower, upper; };

/* A document of a catalog's answer: its shard, from 0, its number there, from 0, and bounds of its score. */
struct ats_catalog_row { uint64_t shard, doc, lower, upper; };

/* A term of a query: size bytes of UTF-8 (the rest of word is 0), and how often the query has it. */
struct ats_term { uint8_t word[64]; uint32_t size, weight; };

struct ats_verdict {
    uint32_t status;        /* 0 accepted; 1 refused; 2 the query is not UTF-8, or there is too little room; 4 r is not
                               1 to 1,000, or the query or the roots are out of their limits; 6 no memory */
    uint32_t reason;        /* 0, or which fault: the first of the list below that the call comes to */
    uint64_t count;         /* status 0: how many rows, documents, terms or shards there are; a reason of 64 or more:
                               the number of the shard, from 0; else 0 */
    uint64_t first, second; /* status 0: what the call says; else the numbers of the fault as listed below, or 0 */
};

/* Faults; ats_line has their words, and docs/formats.md what they mean. They are found in the order of these lists. The
 * status is 1 unless it stands here. In brackets stands what `first` is, and after a comma what `second` is.
 * All of a query: 1 not UTF-8 (status 2); by ats_check and ats_catalog then 2 r (r; status 4), 3 room for rows (the
 *   room; status 2); and then, with status 4, 4 bytes (how many), 5 no term, 6 words (how many), 7 terms (how many
 *   distinct). 34 memory (status 6), at any time.
 * All of a proof or a file, of the shape: 8 long (the limit); 9 cut, 10 magic, 11 version, 12 algorithm, 13 count,
 *   14 order, 15 trailing (the offset in the file).
 * ats_both: 35 not-tra, 36 answer-shown (rows). ats_check, ats_both: 16 other-root, 17 slot-count (how many are shown),
 *   18 dict-misfit, 19 dict-root, 20 slot-wrong (term), 21 index-out (term, entry), 22 repeated (term, entry),
 *   23 list-misfit (term), 24 list-root (term), 25 unmet (index), 26 docs-misfit, 27 docs-root,
 *   28 terms-misfit (document), 29 terms-root (document), 30 term-slot (document, term). ats_check: 31 answer-out
 *   (row), 32 answer-repeated (row), 33 not-settled. ats_both: 37 no-whole-list, 38 room for documents (the room, how
 *   many there are; status 2).
 * ats_catalog: 16 other-root; 64 more than the reason, 8 to 32, that ats_check has for the proof of a shard under the
 *   shard's root (the numbers of that fault; an offset is one in the shard's proof); 33 not-settled.
 * ats_catalog_root: 49 roots (how many bytes; status 4).
 * ats_text: 16 other-root, 39 doc-out (documents), 40 text-misfit (digests), 41 text-root.
 * ats_growth: 42 other-old, 43 other-new, 44 shrunk (old documents, new), 45 growth-misfit (digests), 46 old-texts,
 *   47 new-texts.
 * ats_query: 48 room for terms (the room, how many there are; status 2). */

/* In all calls: a root is 32 bytes (not its digits); a query is query_size bytes of UTF-8. With status 0 what is shown
 * is in the first verdict->count places of its array, and the rest is as it was. With any other, all of it is. */

/* Checks a proof, for a query and the best r documents. rows has room for `room` rows, which must be at least r.
 * Status 0: rows has the rows of the answer, best first. There are at most r of them, or none. */
void ats_check(const uint8_t *proof, size_t proof_size, const uint8_t *root, const uint8_t *query, size_t query_size,
               uint32_t r, struct ats_row *rows, size_t room, struct ats_verdict *verdict);

/* Checks a proof of all documents that have every term of a query. docs has room for `room` numbers; 65,536 are always
 * enough. Status 0: docs has the numbers of all these documents, rising. There may be none. */
void ats_both(const uint8_t *proof, size_t proof_size, const uint8_t *root, const uint8_t *query, size_t query_size,
              uint32_t *docs, size_t room, struct ats_verdict *verdict);

/* Checks a catalog's proof under the catalog's root, for a query and the best r documents of all shards. rows and its
 * room are as for ats_check. */
void ats_catalog(const uint8_t *proof, size_t proof_size, const uint8_t *root, const uint8_t *query, size_t query_size,
                 uint32_t r, struct ats_catalog_row *rows, size_t room, struct ats_verdict *verdict);

/* Computes the root of a catalog. roots has the roots of its shards, 1 to 4,096 of 32 bytes one after another, shard 0
 * first. Status 0: root has the 32 bytes of the catalog's root, and verdict->count is the number of shards. */
void ats_catalog_root(const uint8_t *roots, size_t roots_size, uint8_t *root, struct ats_verdict *verdict);

/* Checks a file that gives the text of document doc, from 0. Status 0: the text is the verdict->second bytes of the
 * file from byte verdict->first on, counted from 0. They may be any bytes, and none. */
void ats_text(const uint8_t *file, size_t file_size, const uint8_t *root, uint32_t doc, struct ats_verdict *verdict);

/* Checks a file that shows how an archive grew. Status 0: the archive of the old root has verdict->first documents,
 * that of the new root verdict->second, and the texts of the old one are the first of the new one. */
void ats_growth(const uint8_t *file, size_t file_size, const uint8_t *old_root, const uint8_t *new_root,
                struct ats_verdict *verdict);

/* Reads a query. terms has room for `room` terms; 32 are always enough. Status 0: terms has its terms, each once, in
 * the order of their bytes. */
void ats_query(const uint8_t *query, size_t query_size, struct ats_term *terms, size_t room,
               struct ats_verdict *verdict);

/* Writes the line of a verdict, without a line feed or a 0 byte, to text, which has room for `room` bytes; 128 are
 * always enough. With status 1, 4 and 6 it is the line that a command prints; with 2 it begins with `usage: ` and says
 * what is wrong, as no command does. With 0 it is empty: print what is shown.
 * Returns 0, and *size is the size of the line; 2 if there is too little room, and *size is the same, but text is as
 * it was; 6 if there is no memory, and both are as they were. */
uint32_t ats_line(const struct ats_verdict *verdict, uint8_t *text, size_t room, size_t *size);

/* Returns the version of the library, which must be ATS_READER_VERSION, and puts the three numbers of the version of
 * Unicode by which it finds words into unicode[0] to unicode[2]. */
uint32_t ats_version(uint32_t *unicode);

#ifdef __cplusplus
}
#endif
#endif
