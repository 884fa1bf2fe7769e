/* The flow graph of a Commodore BASIC listing: the proved library from C.
 *
 * The caller lends every table. `flow_build` reads a listing's text and writes its graph, `flow_build_program` a saved BASIC V2
 * program and the graph of the listing that it means, `flow_check` also holds a printed graph to a text; the other calls answer
 * questions about tables, whoever wrote them. Lengths count entries. No pointer may be null, also where the length is 0, and
 * nothing that is written may overlap anything else; no more is asked of what is lent. Too short a table, a wrong count or a
 * wrong record is refused by its number. Nothing is allocated or kept between calls, so any number of threads may call at once,
 * each with tables of its own.
 *
 * tests/header.py holds this file to the sources of the library. docs/DECISIONS.md, "Tables", has the layout in words.
 */
#ifndef FLOWGRAPH_H
#define FLOWGRAPH_H

#include <stdbool.h>
#include <stddef.h>
#include <stdint.h>

#ifdef __cplusplus
extern "C" {
#endif

/* The limits of a listing. The bytes are those of a text or of a program file; what a file means may be longer as a text. */
#define FLOW_MAX_BYTES 65536
#define FLOW_MAX_LINES 1024
#define FLOW_MAX_STATEMENTS 4096
#define FLOW_MAX_EDGES 32768
#define FLOW_MAX_DEPTH 16

/* `counts`: how many lines and statements, 1 where the listing has handlers, how many edges, return targets and rows of
 * `entries`. */
#define FLOW_COUNTS 6
#define FLOW_COUNT_LINES 0
#define FLOW_COUNT_STATEMENTS 1
#define FLOW_COUNT_HANDLERS 2
#define FLOW_COUNT_EDGES 3
#define FLOW_COUNT_RETURNS 4
#define FLOW_COUNT_ENTRIES 5

/* Entries of each table for a line (lines, entries), an edge (succ, pred) or a statement (all others). */
#define FLOW_LINES_EACH 1
#define FLOW_STMTS_EACH 12
#define FLOW_ARGS_EACH 64
#define FLOW_ENTRIES_EACH 2
#define FLOW_FALLS_EACH 3
#define FLOW_LINKS_EACH 64
#define FLOW_LISTS_EACH 4
#define FLOW_RETURNS_EACH 1
#define FLOW_SUCC_EACH 1
#define FLOW_PRED_EACH 1

/* Entries that suffice for every listing. */
#define FLOW_LINES_SIZE 1024
#define FLOW_STMTS_SIZE 49152
#define FLOW_ARGS_SIZE 262144
#define FLOW_ENTRIES_SIZE 2048
#define FLOW_FALLS_SIZE 12288
#define FLOW_LINKS_SIZE 262144
#define FLOW_LISTS_SIZE 16384
#define FLOW_RETURNS_SIZE 4096
#define FLOW_SUCC_SIZE 32768
#define FLOW_PRED_SIZE 32768

/* Bytes that suffice for every printed graph. */
#define FLOW_PAGE_SIZE 1048576

/* A statement's record in `stmts`. A node or none is one more than its id, or 0. */
#define FLOW_STMT_WORD 0    /* its opening word */
#define FLOW_STMT_LINE 1    /* index of its line */
#define FLOW_STMT_HOLDER 2  /* the IF that holds it, or none */
#define FLOW_STMT_INDEX 3   /* the last number of its path */
#define FLOW_STMT_END 4     /* where its subtree ends */
#define FLOW_STMT_SECOND 5  /* where its second branch begins */
#define FLOW_STMT_FORM1 6   /* form of the first branch, and its line number */
#define FLOW_STMT_NUMBER1 7
#define FLOW_STMT_FORM2 8   /* the same of the second */
#define FLOW_STMT_NUMBER2 9
#define FLOW_STMT_COUNT 10  /* how many numbers or slots */
#define FLOW_STMT_DETAIL 11 /* FOR's tier, NEXT's mark */

/* A row of `entries`, ascending by line number. */
#define FLOW_ENTRY_NUMBER 0 /* a line's number */
#define FLOW_ENTRY_NODE 1   /* the node where a jump to it starts, or none */

/* In `falls`: the node that a statement falls to, or none; of a call that is its continuation. */
#define FLOW_FALL_NEXT 0

/* The opening words by their index, as `flow_statement` and `flow_path` answer them. */
#define FLOW_WORDS 28
#define FLOW_WORD_MODULE 0
#define FLOW_WORD_LINE 1
#define FLOW_WORD_IF 2
#define FLOW_WORD_IFELSE 3
#define FLOW_WORD_RCOMP 4
#define FLOW_WORD_TO 5
#define FLOW_WORD_STMTS 6
#define FLOW_WORD_GOTO 7
#define FLOW_WORD_GOSUB 8
#define FLOW_WORD_RETURN 9
#define FLOW_WORD_RUN 10
#define FLOW_WORD_ONGOTO 11
#define FLOW_WORD_ONGOSUB 12
#define FLOW_WORD_FOR 13
#define FLOW_WORD_NEXT 14
#define FLOW_WORD_REPEAT 15
#define FLOW_WORD_LOOP 16
#define FLOW_WORD_UNTIL 17
#define FLOW_WORD_ENDLOOP 18
#define FLOW_WORD_EXIT 19
#define FLOW_WORD_EXITIF 20
#define FLOW_WORD_DOIF 21
#define FLOW_WORD_ELSE 22
#define FLOW_WORD_DONE 23
#define FLOW_WORD_CLR 24
#define FLOW_WORD_STOP 25
#define FLOW_WORD_ANY 26
#define FLOW_WORD_PLAIN 27

/* What a call returns: FLOW_OK, or the number of its refusal. Rows, lines, bytes and ids count from 0. In `flow_build_program`
 * the place of 4 to 8 is the line. */
#define FLOW_OK 0
#define FLOW_TEXT_TOO_LONG 1       /* the text or the program file; place 0 */
#define FLOW_NOT_A_FORM 2          /* not a form allowed here, or the text ends early; place: the row */
#define FLOW_BAD_WORD 3            /* a number above 65535 or with a leading zero, or no name; place: the row, 0 in a question */
#define FLOW_LINE_ORDER 4          /* a line number not above the last; place: the row */
#define FLOW_TOO_MANY_LINES 5      /* line 1,025; place: the row */
#define FLOW_TOO_MANY_STATEMENTS 6 /* statement 4,097; place: the row */
#define FLOW_TOO_DEEP 7            /* a statement at depth 17; place: the row */
#define FLOW_TOO_WIDE 8            /* a 65th number or slot; place: the row */
#define FLOW_LINE_TABLES 21        /* lines or entries too short; place: how many lines there are */
#define FLOW_NODE_TABLES 22        /* a table with entries for each statement too short; place: how many statements there are */
#define FLOW_EDGE_TABLES 23        /* succ or pred too short, or over 32,768 edges; place: how many edges there are */
#define FLOW_NO_NODE 24            /* a node id not below the node count; place: the id */
#define FLOW_OUTSIDE 25            /* a used count or a record points outside its table; place 0 */
#define FLOW_NO_STATEMENT 26       /* no statement at the path asked, or at the path in a node's record; place 0 */
#define FLOW_NOT_FOUND 27          /* an inner statement not found during building; proved never to be given; place 0 */
#define FLOW_NO_ROOM 28            /* the frame list is longer than the slice lent for it; place: its length */
#define FLOW_NOT_A_ROW 31          /* a row that no graph prints, or that lacks its byte 10; place: the row */
#define FLOW_WRONG_ROW 32          /* a row in form but wrong, missing or one too many; place: the row */
#define FLOW_ENDS_EARLY 33         /* the program file ends early; place: its length */
#define FLOW_FOREIGN_BYTE 34       /* a 64 hexadecimal in a line, outside quotes, REM and DATA; place: the byte */
#define FLOW_LACKING 35            /* a name, a line number, or an IF's THEN or GOTO or what follows it is lacking, or a line number
                                      is above 63999; place: the number's first byte, or the byte found instead */

/* Reads the text and writes its graph: FLOW_OK, 0 in `place`, and zeros past the used parts. Or refused: 1 to 8, 21, 22, 23, with
 * its place in `place`, and every entry of every table zero. What the tables held before does not matter. */
uint8_t flow_build(
    const uint8_t *text, size_t text_len,
    uint32_t counts[6],
    uint16_t *lines, size_t lines_len,
    uint16_t *stmts, size_t stmts_len,
    uint64_t *args, size_t args_len,
    uint16_t *entries, size_t entries_len,
    uint16_t *falls, size_t falls_len,
    uint16_t *links, size_t links_len,
    uint16_t *lists, size_t lists_len,
    uint16_t *returns, size_t returns_len,
    uint16_t *succ, size_t succ_len,
    uint16_t *pred, size_t pred_len,
    size_t place[1]);

/* The same of a saved BASIC V2 program, as the machine's SAVE writes it: two load address bytes, then the lines. The graph is that
 * of the listing that the file means, whose own text length is not judged. Refused: 1, 4 to 8, 21, 22, 23, 33, 34, 35. */
uint8_t flow_build_program(
    const uint8_t *program, size_t program_len,
    uint32_t counts[6],
    uint16_t *lines, size_t lines_len,
    uint16_t *stmts, size_t stmts_len,
    uint64_t *args, size_t args_len,
    uint16_t *entries, size_t entries_len,
    uint16_t *falls, size_t falls_len,
    uint16_t *links, size_t links_len,
    uint16_t *lists, size_t lists_len,
    uint16_t *returns, size_t returns_len,
    uint16_t *succ, size_t succ_len,
    uint16_t *pred, size_t pred_len,
    size_t place[1]);

/* Builds as `flow_build`, with the same tables after, and compares `graph` with the listing's printed graph: FLOW_OK and 0 in
 * `place` if it is that graph, byte for byte. Or refused, with its place in `place`: the listing's 1 to 8, 21, 22, 23, whatever
 * `graph` is, or 31 or 32 for the first row of `graph` that is not the one due. That printed graph, or the refused listing's row
 * `(refused NUMBER PLACE)`, then stands at the front of `page`; what stands past it is as it was. */
uint8_t flow_check(
    const uint8_t *text, size_t text_len,
    const uint8_t *graph, size_t graph_len,
    uint32_t counts[6],
    uint16_t *lines, size_t lines_len,
    uint16_t *stmts, size_t stmts_len,
    uint64_t *args, size_t args_len,
    uint16_t *entries, size_t entries_len,
    uint16_t *falls, size_t falls_len,
    uint16_t *links, size_t links_len,
    uint16_t *lists, size_t lists_len,
    uint16_t *returns, size_t returns_len,
    uint16_t *succ, size_t succ_len,
    uint16_t *pred, size_t pred_len,
    uint8_t page[1048576],
    size_t place[1]);

/* The questions below give FLOW_OK and their answer in `answer`, or a refusal, its place in `answer[0]` and 0 in `answer[1]`. */

/* A node's successors in their order: `answer[1]` entries of `succ` from `answer[0]` on. Refused: 24, 25. */
uint8_t flow_successors(
    const uint32_t counts[6],
    const uint16_t *lists, size_t lists_len,
    const uint16_t *succ, size_t succ_len,
    size_t node,
    size_t answer[2]);

/* A node's predecessors, ascending: the same of `pred`. */
uint8_t flow_predecessors(
    const uint32_t counts[6],
    const uint16_t *lists, size_t lists_len,
    const uint16_t *pred, size_t pred_len,
    size_t node,
    size_t answer[2]);

/* A node's statement: `answer` is its node id and the index of its opening word. Refused: 24, 25, 26. */
uint8_t flow_statement(
    const uint32_t counts[6],
    const uint16_t *stmts, size_t stmts_len,
    size_t node,
    size_t answer[2]);

/* The statement at a path, a line index and numbers: the same answer. Refused: 25, 26. */
uint8_t flow_path(
    const uint32_t counts[6],
    const uint16_t *stmts, size_t stmts_len,
    size_t line,
    const uint16_t *path, size_t path_len,
    size_t answer[2]);

/* Where a jump to a line number starts: `answer` is a node and 1, or 0 and 0 for none. Refused: 25. */
uint8_t flow_entry(
    const uint32_t counts[6],
    const uint16_t *entries, size_t entries_len,
    uint16_t number,
    size_t answer[2]);

/* The successors of `node` that keep the frame of the loop at `header` over the variable `name`; `flag`: a NEXT uses that frame.
 * Of a name the first two characters and its % or $ count, in the listing too; 3 is asked of the whole name.
 * `answer[0]` of them stand in `out`, with zeros after; `answer[1]` is 0. Refused: 3, 24 (the header first), 25, 26, 28; `out`
 * is then as it was. */
uint8_t flow_frame(
    const uint32_t counts[6],
    const uint16_t *stmts, size_t stmts_len,
    const uint64_t *args, size_t args_len,
    const uint16_t *falls, size_t falls_len,
    const uint16_t *lists, size_t lists_len,
    const uint16_t *succ, size_t succ_len,
    size_t header,
    size_t node,
    const uint8_t *name, size_t name_len,
    bool flag,
    uint16_t *out, size_t out_len,
    size_t answer[2]);

#ifdef __cplusplus
}
#endif

#endif
