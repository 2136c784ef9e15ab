/* The calls of ats_reader.h over the module of the page as C. Each call has a module of its own with a memory of its own,
 * so calls may run in several threads. Bytes are copied into that memory, and what is shown out of it. Not proved. */
#include "ats.h"
#include "ats_reader.h"
#if !defined(__BYTE_ORDER__) || __BYTE_ORDER__ != __ORDER_LITTLE_ENDIAN__
#error "what is copied has its least byte first"
#endif

typedef Z_ats_instance_t Module;

/* One byte more than a proof may have, or a catalog's proof, which is longer than any such file may be. */
static const size_t most = ((size_t)1 << 26) + 1, most_catalog = ((size_t)1 << 28) + 1;

static size_t least(size_t a, size_t b) { return a < b ? a : b; }

/* Room in the memory, with these bytes, or 0. */
static u64 put(Module *module, const void *bytes, size_t size) {
    u64 at = Z_atsZ_page_room(module, size);
    if (at) memcpy(module->w2c_memory.data + at, bytes, size);
    return at;
}

static void take(Module *module, void *to, u64 at, size_t size) { memcpy(to, module->w2c_memory.data + at, size); }

static void no_memory(struct ats_verdict *verdict) {
    *verdict = (struct ats_verdict){.status = 6, .reason = 34, .count = 0, .first = 0, .second = 0};
}

/* Takes the verdict, and what is shown with status 0, and gives the memory back. */
static void finish(Module *module, u64 at, struct ats_verdict *verdict, void *shown, u64 from, size_t each) {
    take(module, verdict, at, sizeof *verdict);
    if (verdict->status == 0 && each) take(module, shown, from, verdict->count * each);
}

void ats_check(const uint8_t *proof, size_t proof_size, const uint8_t *root, const uint8_t *query, size_t query_size,
               uint32_t r, struct ats_row *rows, size_t room, struct ats_verdict *verdict) {
    Module module;
    Z_ats_instantiate(&module);
    proof_size = least(proof_size, most);
    room = least(room, 1000);
    u64 p = put(&module, proof, proof_size), t = put(&module, root, 32), q = put(&module, query, query_size);
    u64 s = put(&module, rows, room * sizeof *rows), v = put(&module, verdict, sizeof *verdict);
    if (p && t && q && s && v) {
        Z_atsZ_ats_check(&module, p, proof_size, t, q, query_size, r, s, room, v);
        finish(&module, v, verdict, rows, s, sizeof *rows);
    } else no_memory(verdict);
    Z_ats_free(&module);
}

void ats_both(const uint8_t *proof, size_t proof_size, const uint8_t *root, const uint8_t *query, size_t query_size,
              uint32_t *docs, size_t room, struct ats_verdict *verdict) {
    Module module;
    Z_ats_instantiate(&module);
    proof_size = least(proof_size, most);
    room = least(room, 65536);
    u64 p = put(&module, proof, proof_size), t = put(&module, root, 32), q = put(&module, query, query_size);
    u64 s = put(&module, docs, room * sizeof *docs), v = put(&module, verdict, sizeof *verdict);
    if (p && t && q && s && v) {
        Z_atsZ_ats_both(&module, p, proof_size, t, q, query_size, s, room, v);
        finish(&module, v, verdict, docs, s, sizeof *docs);
    } else no_memory(verdict);
    Z_ats_free(&module);
}

void ats_catalog(const uint8_t *proof, size_t proof_size, const uint8_t *root, const uint8_t *query, size_t query_size,
                 uint32_t r, struct ats_catalog_row *rows, size_t room, struct ats_verdict *verdict) {
    Module module;
    Z_ats_instantiate(&module);
    proof_size = least(proof_size, most_catalog);
    room = least(room, 1000);
    u64 p = put(&module, proof, proof_size), t = put(&module, root, 32), q = put(&module, query, query_size);
    u64 s = put(&module, rows, room * sizeof *rows), v = put(&module, verdict, sizeof *verdict);
    if (p && t && q && s && v) {
        Z_atsZ_ats_catalog(&module, p, proof_size, t, q, query_size, r, s, room, v);
        finish(&module, v, verdict, rows, s, sizeof *rows);
    } else no_memory(verdict);
    Z_ats_free(&module);
}

void ats_catalog_root(const uint8_t *roots, size_t roots_size, uint8_t *root, struct ats_verdict *verdict) {
    Module module;
    Z_ats_instantiate(&module);
    u64 s = put(&module, roots, roots_size), t = put(&module, root, 32), v = put(&module, verdict, sizeof *verdict);
    if (s && t && v) {
        Z_atsZ_ats_catalog_root(&module, s, roots_size, t, v);
        finish(&module, v, verdict, 0, 0, 0);
        if (verdict->status == 0) take(&module, root, t, 32);
    } else no_memory(verdict);
    Z_ats_free(&module);
}

void ats_text(const uint8_t *file, size_t file_size, const uint8_t *root, uint32_t doc, struct ats_verdict *verdict) {
    Module module;
    Z_ats_instantiate(&module);
    file_size = least(file_size, most);
    u64 f = put(&module, file, file_size), t = put(&module, root, 32), v = put(&module, verdict, sizeof *verdict);
    if (f && t && v) {
        Z_atsZ_ats_text(&module, f, file_size, t, doc, v);
        finish(&module, v, verdict, 0, 0, 0);
    } else no_memory(verdict);
    Z_ats_free(&module);
}

void ats_growth(const uint8_t *file, size_t file_size, const uint8_t *old_root, const uint8_t *new_root,
                struct ats_verdict *verdict) {
    Module module;
    Z_ats_instantiate(&module);
    file_size = least(file_size, most);
    u64 f = put(&module, file, file_size), o = put(&module, old_root, 32), n = put(&module, new_root, 32);
    u64 v = put(&module, verdict, sizeof *verdict);
    if (f && o && n && v) {
        Z_atsZ_ats_growth(&module, f, file_size, o, n, v);
        finish(&module, v, verdict, 0, 0, 0);
    } else no_memory(verdict);
    Z_ats_free(&module);
}

void ats_query(const uint8_t *query, size_t query_size, struct ats_term *terms, size_t room,
               struct ats_verdict *verdict) {
    Module module;
    Z_ats_instantiate(&module);
    room = least(room, 32);
    u64 q = put(&module, query, query_size), s = put(&module, terms, room * sizeof *terms);
    u64 v = put(&module, verdict, sizeof *verdict);
    if (q && s && v) {
        Z_atsZ_ats_query(&module, q, query_size, s, room, v);
        finish(&module, v, verdict, terms, s, sizeof *terms);
    } else no_memory(verdict);
    Z_ats_free(&module);
}

uint32_t ats_line(const struct ats_verdict *verdict, uint8_t *text, size_t room, size_t *size) {
    Module module;
    Z_ats_instantiate(&module);
    uint64_t length = 0;
    uint32_t status = 6;
    room = least(room, 128);
    u64 v = put(&module, verdict, sizeof *verdict), t = put(&module, text, room);
    u64 s = put(&module, &length, sizeof length);
    if (v && t && s) status = Z_atsZ_ats_line(&module, v, t, room, s);
    if (status != 6) {
        take(&module, &length, s, sizeof length);
        *size = (size_t)length;
    }
    if (status == 0) take(&module, text, t, *size);
    Z_ats_free(&module);
    return status;
}

uint32_t ats_version(uint32_t *unicode) {
    Module module;
    Z_ats_instantiate(&module);
    u64 at = put(&module, unicode, 12);
    uint32_t version = at ? Z_atsZ_ats_version(&module, at) : 0;
    if (at) take(&module, unicode, at, 12);
    Z_ats_free(&module);
    return version;
}
