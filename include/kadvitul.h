/* Kadvitul: a proved checker for merge rules. Version 4.0.0.
 *
 * A rule is a table of bytes, and a trace is a file of bytes too; docs/FORMAT.md says what they hold. Every call but
 * kadvitul_version takes any bytes at all and gives one number of the documented answer; the calls that belong together give the numbers of
 * one and the same answer. Nothing is kept between calls, nothing is allocated, no pointer is kept, and calls may run at the same time on
 * several threads. A pointer may be NULL where its length is 0.
 *
 * The calls that write fill out from its first byte and leave the rest of it as it was; a refusal leaves all of it. Each of them does so,
 * whichever number it gives. out must not overlap the file. KADVITUL_ROOM bytes hold every trace and slice, and a slice never takes more
 * than its trace; KADVITUL_SCRIPT_ROOM bytes hold every script.
 */
#ifndef KADVITUL_H
#define KADVITUL_H

#include <stddef.h>
#include <stdint.h>

#ifdef __cplusplus
extern "C" {
#endif

/* The version: 10000 times the first number, 100 times the second, and the third. kadvitul_version gives that of the archive. */
#define KADVITUL_VERSION 40000
#define KADVITUL_VERSION_TEXT "4.0.0"

/* The room that always does, in bytes: for a trace or a slice, and for a script. */
#define KADVITUL_ROOM 65535
#define KADVITUL_SCRIPT_ROOM 4000000

/* Replies. The offset is, for 5 and 6, that of the refused record's first byte, or of the first spare byte; for 7 that of the first token
 * at which the expression breaks its rules, or of its end where its tokens leave other than one word; and 0 otherwise. A refusal's other
 * numbers are 0. */
enum kadvitul_reply {
    KADVITUL_DONE = 0,
    KADVITUL_TOO_SHORT = 1,        /* fewer than 6 bytes */
    KADVITUL_WRONG_VERSION = 2,    /* wrong version byte */
    KADVITUL_WRONG_LENGTH = 3,     /* the length field is not the length */
    KADVITUL_OVER_LIMIT = 4,       /* inputs or records above their limit */
    KADVITUL_BAD_RECORD = 5,       /* a record is cut short, empty, of unknown kind or lacks fields, or bytes follow the last */
    KADVITUL_BAD_NUMBER = 6,       /* a target or an assigned symbol against its rule */
    KADVITUL_BAD_EXPRESSION = 7,   /* an expression against its rules */
    KADVITUL_BOUND_TOO_HIGH = 8,   /* the bound is above 255 */
    KADVITUL_TRACE_TOO_LONG = 9,   /* the trace has over 4,096 statements or 65,535 bytes */
    KADVITUL_NO_ROOM = 10,         /* out is shorter than the result */
    KADVITUL_WRONG_VALUATION = 11  /* the valuation has not 4 bytes for each input */
};

/* Verdicts: how a run or a judging came to its end. All but KADVITUL_UNSAFE have place 0. A refusal has KADVITUL_ENDED too: ask the reply
 * first. None of them is the one "safe": a cut run was not followed to its end, and a merge must not rest on it. */
enum kadvitul_verdict {
    KADVITUL_ENDED = 0,   /* past the last instruction or statement */
    KADVITUL_UNSAFE = 1,  /* at a false Assert */
    KADVITUL_STOPPED = 2, /* at a false Assume: nothing is claimed of what follows it */
    KADVITUL_CUT = 3      /* by the bound: nothing is known of what follows it */
};

uint32_t kadvitul_version(void);

/* Running a table under a bound on its back jumps. The valuation has 4 bytes, big-endian, for each input. An unsafe run took at most bound
 * back jumps, and has the place back_jumps * (instructions + 1) + the instruction that failed. A run is cut where it would take a back jump
 * more than the bound. */
uint32_t kadvitul_run_reply(const uint8_t *table, size_t table_len, uint64_t bound, const uint8_t *valuation, size_t valuation_len);
uint32_t kadvitul_run_offset(const uint8_t *table, size_t table_len, uint64_t bound, const uint8_t *valuation, size_t valuation_len);
uint32_t kadvitul_run_verdict(const uint8_t *table, size_t table_len, uint64_t bound, const uint8_t *valuation, size_t valuation_len);
uint32_t kadvitul_run_place(const uint8_t *table, size_t table_len, uint64_t bound, const uint8_t *valuation, size_t valuation_len);
uint32_t kadvitul_run_back_jumps(const uint8_t *table, size_t table_len, uint64_t bound, const uint8_t *valuation, size_t valuation_len);

/* Judging a trace, of version 130 or 129, under a valuation of its inputs: the first false test decides. A false Assert is unsafe, with the
 * place that the trace gives it; a false Assume stops, a false bound cuts. A trace of version 129 has an Assume for the bound, so there a
 * cut shows as KADVITUL_STOPPED. */
uint32_t kadvitul_judge_reply(const uint8_t *trace, size_t trace_len, const uint8_t *valuation, size_t valuation_len);
uint32_t kadvitul_judge_offset(const uint8_t *trace, size_t trace_len, const uint8_t *valuation, size_t valuation_len);
uint32_t kadvitul_judge_verdict(const uint8_t *trace, size_t trace_len, const uint8_t *valuation, size_t valuation_len);
uint32_t kadvitul_judge_place(const uint8_t *trace, size_t trace_len, const uint8_t *valuation, size_t valuation_len);

/* Writing the trace of a table, of version 130, under a bound on its back jumps. The length is that of the trace; judging the whole trace
 * gives the verdict, one of all four, and the place of running the table under the same bound. */
uint32_t kadvitul_trace_reply(const uint8_t *table, size_t table_len, uint64_t bound, uint8_t *out, size_t out_len);
uint32_t kadvitul_trace_offset(const uint8_t *table, size_t table_len, uint64_t bound, uint8_t *out, size_t out_len);
uint32_t kadvitul_trace_length(const uint8_t *table, size_t table_len, uint64_t bound, uint8_t *out, size_t out_len);

/* Slicing a trace: the statements that its Asserts depend on. The length is that of the slice, which is a trace of the same version. It is
 * unsafe where the whole is, at the same place, and nowhere else; but it may end where the whole is stopped or cut, so judge the whole to
 * tell these. Bit s of the mask is set when the slice reads input s, and inputs is the count of its ones; no other input changes whether
 * the trace is unsafe, or the place. */
uint32_t kadvitul_slice_reply(const uint8_t *trace, size_t trace_len, uint8_t *out, size_t out_len);
uint32_t kadvitul_slice_offset(const uint8_t *trace, size_t trace_len, uint8_t *out, size_t out_len);
uint32_t kadvitul_slice_length(const uint8_t *trace, size_t trace_len, uint8_t *out, size_t out_len);
uint32_t kadvitul_slice_inputs(const uint8_t *trace, size_t trace_len, uint8_t *out, size_t out_len);
uint64_t kadvitul_slice_mask(const uint8_t *trace, size_t trace_len, uint8_t *out, size_t out_len);

/* Writing the solver's script of a trace: SMT-LIB 2 text, QF_BV, of which docs/SCRIPT.md has every letter. The length is that of the text;
 * no zero follows it. Some inputs make the trace unsafe exactly if the script can be satisfied, and the inputs of a solution do so. */
uint32_t kadvitul_script_reply(const uint8_t *trace, size_t trace_len, uint8_t *out, size_t out_len);
uint32_t kadvitul_script_offset(const uint8_t *trace, size_t trace_len, uint8_t *out, size_t out_len);
uint32_t kadvitul_script_length(const uint8_t *trace, size_t trace_len, uint8_t *out, size_t out_len);

#ifdef __cplusplus
}
#endif

#endif
