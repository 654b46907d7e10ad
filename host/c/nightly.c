/* The store's nightly merge job, over libkadvitul.a.
 *
 *   nightly rule BOUND FILE VALUATIONS     runs the rule of FILE under a bound on its back jumps, then slices its trace
 *   nightly trace FILE VALUATIONS          judges the trace of FILE
 *   nightly script FILE                    writes the solver's script of the trace of FILE, which docs/SCRIPT.md explains
 *
 * VALUATIONS has one valuation after the other, 4 bytes big-endian for each input; FILE's byte 3 says how many inputs there are. A file
 * without valuations, or with a part of one at its end, is handed over as it is, and refused by its length where there are inputs.
 *
 * What a verdict means for the merge: ended, merge. Stopped, merge: the rule says nothing of stamps for which its assumption does not hold.
 * Unsafe, do not merge. Cut, do not merge: the bound was too small to tell. A trace of version 129 shows a cut as stopped, so there stopped
 * is no merge either. FILE has to be a whole trace: a slice may end where its trace is cut.
 *
 * Exit status: 0 merge all, or the script is written; 1 wrong usage; 2 a call refused, whatever the others said; 3 a file cannot be read,
 * the output not be written, or the archive is of another version; 4 some unsafe; 5 none unsafe, but some that the bound may have cut. */
#include <errno.h>
#include <inttypes.h>
#include <stdio.h>
#include <stdlib.h>
#include <string.h>

#include "kadvitul.h"

enum { MERGE_ALL = 0, USAGE = 1, REFUSED = 2, UNREADABLE = 3, SOME_UNSAFE = 4, SOME_CUT = 5 };

/* The trace version in which a cut shows as stopped. */
enum { OLD_TRACE = 129 };

enum { FIRST_ROOM = 4096 };

/* A NULL pointer where the length is 0. */
struct bytes {
    uint8_t *at;
    size_t len;
};

/* Doubles the room until the file ends, then gives back what it does not fill. Without memory a file is unreadable. */
static int read_stream(FILE *stream, struct bytes *file) {
    size_t room = 0;
    while (file->len == room) {
        room = room == 0 ? FIRST_ROOM : 2 * room;
        uint8_t *at = realloc(file->at, room);
        if (at == NULL) return UNREADABLE;
        file->at = at;
        file->len += fread(at + file->len, 1, room - file->len, stream);
        if (ferror(stream)) return UNREADABLE;
    }
    if (file->len == 0) {
        free(file->at);
        file->at = NULL;
        return MERGE_ALL;
    }
    uint8_t *exact = realloc(file->at, file->len);
    if (exact != NULL) file->at = exact;
    return MERGE_ALL;
}

static int read_file(const char *path, struct bytes *file) {
    FILE *stream = fopen(path, "rb");
    int status = stream == NULL ? UNREADABLE : read_stream(stream, file);
    if (stream != NULL && fclose(stream) != 0) status = UNREADABLE;
    if (status != MERGE_ALL) fprintf(stderr, "nightly: %s cannot be read\n", path);
    return status;
}

static const char *meaning(uint32_t reply) {
    switch (reply) {
    case KADVITUL_TOO_SHORT: return "the file has fewer than 6 bytes";
    case KADVITUL_WRONG_VERSION: return "the version byte is wrong: not this kind of file";
    case KADVITUL_WRONG_LENGTH: return "the length field is not the file's length";
    case KADVITUL_OVER_LIMIT: return "more inputs or records than allowed";
    case KADVITUL_BAD_RECORD: return "a record is cut short or of unknown kind, or bytes follow the last record";
    case KADVITUL_BAD_NUMBER: return "a jump's target or an assigned symbol is against its rule";
    case KADVITUL_BAD_EXPRESSION: return "an expression is against its rules";
    case KADVITUL_BOUND_TOO_HIGH: return "the bound is above 255";
    case KADVITUL_TRACE_TOO_LONG: return "the trace has over 4,096 statements or 65,535 bytes";
    case KADVITUL_NO_ROOM: return "the buffer is shorter than the result";
    case KADVITUL_WRONG_VALUATION: return "the valuation has not 4 bytes for each input";
    default: return "a number that kadvitul.h does not list";
    }
}

static int refused(const char *what, uint32_t reply, uint32_t offset) {
    printf("%s refused %" PRIu32 " at %" PRIu32 ": %s\n", what, reply, offset, meaning(reply));
    return REFUSED;
}

/* Says what an accepted call's verdict means for the merge, behind the verdict itself. A verdict that kadvitul.h does not list is none to
 * merge on. */
static int merge(uint32_t verdict, int tells_cut) {
    switch (verdict) {
    case KADVITUL_ENDED: printf(": merge\n"); return MERGE_ALL;
    case KADVITUL_STOPPED:
        if (!tells_cut) {
            printf(": do not merge: a trace of version 129 does not tell this from a cut; write it anew\n");
            return SOME_CUT;
        }
        printf(": merge: the rule's assumption does not hold for these stamps\n");
        return MERGE_ALL;
    case KADVITUL_CUT: printf(": do not merge: the bound was too small to tell; raise K\n"); return SOME_CUT;
    default: printf(": do not merge\n"); return SOME_UNSAFE;
    }
}

static void print_verdict(uint32_t verdict, uint32_t place) {
    switch (verdict) {
    case KADVITUL_ENDED: printf("ended"); break;
    case KADVITUL_UNSAFE: printf("unsafe at %" PRIu32, place); break;
    case KADVITUL_STOPPED: printf("stopped"); break;
    case KADVITUL_CUT: printf("cut"); break;
    default: printf("verdict %" PRIu32 ", which kadvitul.h does not list", verdict);
    }
}

static int run(const struct bytes *f, uint64_t bound, const uint8_t *valuation, size_t len) {
    uint32_t reply = kadvitul_run_reply(f->at, f->len, bound, valuation, len);
    if (reply != KADVITUL_DONE) return refused("run", reply, kadvitul_run_offset(f->at, f->len, bound, valuation, len));
    uint32_t verdict = kadvitul_run_verdict(f->at, f->len, bound, valuation, len);
    print_verdict(verdict, kadvitul_run_place(f->at, f->len, bound, valuation, len));
    printf(", back jumps %" PRIu32, kadvitul_run_back_jumps(f->at, f->len, bound, valuation, len));
    return merge(verdict, 1);
}

static int judge(const struct bytes *f, const uint8_t *valuation, size_t len) {
    uint32_t reply = kadvitul_judge_reply(f->at, f->len, valuation, len);
    if (reply != KADVITUL_DONE) return refused("judging", reply, kadvitul_judge_offset(f->at, f->len, valuation, len));
    uint32_t verdict = kadvitul_judge_verdict(f->at, f->len, valuation, len);
    print_verdict(verdict, kadvitul_judge_place(f->at, f->len, valuation, len));
    return merge(verdict, f->at[0] != OLD_TRACE);
}

/* What two valuations come to: unsafe outweighs cut. */
static int worse(int one, int other) {
    if (one == SOME_UNSAFE || other == SOME_UNSAFE) return SOME_UNSAFE;
    return one == SOME_CUT ? one : other;
}

/* A refusal ends the job. The bound is NULL for a trace. */
static int decide(const struct bytes *file, const uint64_t *bound, const struct bytes *valuations) {
    size_t step = file->len > 3 ? 4 * (size_t)file->at[3] : 0;
    size_t start = 0, number = 0;
    int status = MERGE_ALL;
    do {
        size_t rest = valuations->len - start;
        size_t len = step > 0 && step < rest ? step : rest;
        const uint8_t *valuation = len == 0 ? NULL : valuations->at + start;
        printf("valuation %zu: ", number);
        int one = bound == NULL ? judge(file, valuation, len) : run(file, *bound, valuation, len);
        if (one == REFUSED) return REFUSED;
        status = worse(status, one);
        start += len;
        number++;
    } while (start < valuations->len);
    return status;
}

/* A slice is never longer than its trace. */
static int slice(const uint8_t *trace, uint32_t len, uint8_t *out) {
    uint32_t reply = kadvitul_slice_reply(trace, len, out, len);
    if (reply != KADVITUL_DONE) return refused("slice", reply, kadvitul_slice_offset(trace, len, out, len));
    printf("slice: %" PRIu32 " of the trace's %" PRIu32 " bytes, reads %" PRIu32 " of %d inputs, mask %" PRIx64 "\n",
           kadvitul_slice_length(trace, len, out, len), len, kadvitul_slice_inputs(trace, len, out, len), trace[3],
           kadvitul_slice_mask(trace, len, out, len));
    return MERGE_ALL;
}

static int trace_and_slice(const struct bytes *f, uint64_t bound) {
    uint8_t trace[KADVITUL_ROOM], out[KADVITUL_ROOM];
    uint32_t reply = kadvitul_trace_reply(f->at, f->len, bound, trace, sizeof trace);
    if (reply != KADVITUL_DONE) return refused("trace", reply, kadvitul_trace_offset(f->at, f->len, bound, trace, sizeof trace));
    return slice(trace, kadvitul_trace_length(f->at, f->len, bound, trace, sizeof trace), out);
}

static int job(const uint64_t *bound, const char *path, const char *valuations_path) {
    struct bytes file = {NULL, 0}, valuations = {NULL, 0};
    int status = read_file(path, &file);
    if (status == MERGE_ALL) status = read_file(valuations_path, &valuations);
    if (status == MERGE_ALL) status = decide(&file, bound, &valuations);
    int is_decided = status == MERGE_ALL || status == SOME_UNSAFE || status == SOME_CUT;
    if (is_decided && bound != NULL && trace_and_slice(&file, *bound) == REFUSED) status = REFUSED;
    free(file.at);
    free(valuations.at);
    if (fflush(stdout) != 0 || ferror(stdout)) status = UNREADABLE;
    return status;
}

/* A length of 0 is a refusal: no script is empty. */
static int script(const struct bytes *trace) {
    uint8_t *out = malloc(KADVITUL_SCRIPT_ROOM);
    if (out == NULL) return UNREADABLE;
    uint32_t len = kadvitul_script_length(trace->at, trace->len, out, KADVITUL_SCRIPT_ROOM);
    int status = MERGE_ALL;
    if (len > 0) {
        fwrite(out, 1, len, stdout);
    } else {
        status = refused("script", kadvitul_script_reply(trace->at, trace->len, out, KADVITUL_SCRIPT_ROOM),
                         kadvitul_script_offset(trace->at, trace->len, out, KADVITUL_SCRIPT_ROOM));
    }
    free(out);
    return status;
}

static int script_job(const char *path) {
    struct bytes file = {NULL, 0};
    int status = read_file(path, &file);
    if (status == MERGE_ALL) status = script(&file);
    free(file.at);
    if (fflush(stdout) != 0 || ferror(stdout)) status = UNREADABLE;
    return status;
}

/* Digits alone, of a number below 2^64. */
static int read_bound(const char *text, uint64_t *bound) {
    char *end = NULL;
    errno = 0;
    *bound = strtoull(text, &end, 10);
    return errno == 0 && text[0] >= '0' && text[0] <= '9' && *end == '\0';
}

int main(int argc, char **argv) {
    uint64_t bound = 0;
    if (kadvitul_version() != KADVITUL_VERSION) {
        fprintf(stderr, "nightly: the archive is not of the header's version, " KADVITUL_VERSION_TEXT ". Build the job again\n");
        return UNREADABLE;
    }
    if (argc == 5 && strcmp(argv[1], "rule") == 0 && read_bound(argv[2], &bound)) return job(&bound, argv[3], argv[4]);
    if (argc == 4 && strcmp(argv[1], "trace") == 0) return job(NULL, argv[2], argv[3]);
    if (argc == 3 && strcmp(argv[1], "script") == 0) return script_job(argv[2]);
    fprintf(stderr, "usage: nightly rule BOUND FILE VALUATIONS | nightly trace FILE VALUATIONS | nightly script FILE\n");
    return USAGE;
}
