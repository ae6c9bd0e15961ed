/*
 * Cudreth: solves and marks constraints on trees as XPath sees them, writes the constraints of a question set as paths, writes trees as
 * XML and reads them back, and shares a total of choices among exam centres.
 *
 * Link with libcapi.a (x86-64 Linux), which `tools/archive` writes to target/staticlib/. docs/FORMAT.md says what the bytes mean,
 * examples/host.c is a host program, and cudreth.rs is this file for Rust.
 *
 * All six functions take any bytes of any length, cudreth_draw any records in any number, and always return: damaged files, texts that
 * are no paths or no tree, buffers that are too short and lists of centres that are not sound are refused by a number. They have no
 * globals, allocate nothing, print nothing and set no errno, so any number of threads may call them at once. Threads may share what they
 * only read, constraint files, answer files, node records and texts; a lent buffer or list belongs to the one call that it is lent to until
 * that returns.
 *
 * cudreth_mark uses about 2 KiB of stack, cudreth_draw no more. cudreth_solve recurses once for each alternative that is open, at most 240
 * deep; give its thread CUDRETH_STACK bytes. cudreth_paths recurses once for each bracket that is open, at most 127 deep; give its thread
 * CUDRETH_PATHS_STACK bytes. For cudreth_xml_write and cudreth_xml_read CUDRETH_XML_STACK bytes are enough, however many elements stand
 * inside one another. examples/stack.c measures what all but cudreth_mark use.
 *
 * Each pointer must be valid for its length and not NULL, also where the length is 0. A lent buffer may not overlap what its call
 * reads. No byte of what is only read is changed. A list of centres is aligned as struct cudreth_centre is.
 */
#ifndef CUDRETH_H
#define CUDRETH_H

#include <stddef.h>
#include <stdint.h>

#ifdef __cplusplus
extern "C" {
#endif

/* Rises with each landing that a host can notice. The archive does not know it: take header and archive from one commit. */
#define CUDRETH_VERSION 8

/* Every record has 4 bytes; a file has no header. */
#define CUDRETH_RECORD_BYTES 4
/* The longest constraint file; a longer one is refused with 1. */
#define CUDRETH_CONSTRAINTS_BYTES 1024
/* The shortest buffer that may be lent to cudreth_solve, and the longest answer it writes: 18 node and 16 place records. */
#define CUDRETH_ANSWER_BYTES 136
/* Variables are 0 to 15. */
#define CUDRETH_VARIABLES 16
/* The most nodes that a candidate's tree may have, the document node counted; it has at least 2. */
#define CUDRETH_NODES 64
/* The longest text of paths, and the most lines that it may have; more are refused with 13. */
#define CUDRETH_TEXT_BYTES 1024
#define CUDRETH_LINES 8
/* The shortest buffer that may be lent to cudreth_paths. What is written has at most 180 bytes, 45 records. */
#define CUDRETH_RECORDS_BYTES 1024
/* The shortest buffer that may be lent to cudreth_xml_write. What is written has at most 438 bytes, 63 elements inside one another. */
#define CUDRETH_XML_BYTES 512
/* The shortest buffer that may be lent to cudreth_xml_read, and the most it writes: 64 node records. */
#define CUDRETH_NODES_BYTES 256
/* The most centres that may share a total; a longer list is refused with 18. */
#define CUDRETH_CENTRES 8
/* Stack enough for cudreth_solve. */
#define CUDRETH_STACK (256 * 1024)
/* Stack enough for cudreth_paths. */
#define CUDRETH_PATHS_STACK (64 * 1024)
/* Stack enough for cudreth_xml_write and for cudreth_xml_read. */
#define CUDRETH_XML_STACK (64 * 1024)

/* The first byte of a constraint record: kind, x, y, label. Bytes that a kind does not use are 0. */
enum cudreth_kind {
    CUDRETH_CHILD = 1,          /* the node of x is the parent of the node of y */
    CUDRETH_BELOW = 2,          /* the node of x is that of y or an ancestor of it */
    CUDRETH_STRICTLY_BELOW = 3, /* the node of x is a proper ancestor of that of y */
    CUDRETH_SAME = 4,           /* x and y are on one node */
    CUDRETH_DIFFER = 5,         /* x and y are on two nodes */
    CUDRETH_ROOT = 6,           /* x is on the document node, node 0 */
    CUDRETH_LEAF = 7,           /* the node of x has no child */
    CUDRETH_LABEL = 8,          /* the node of x has that label, 1 to 255, a letter in either case */
    CUDRETH_BEFORE = 9          /* x and y are on siblings, and the node of x has the smaller number */
};

/* The first byte of an answer record. Node records come first. */
enum cudreth_answer_record {
    CUDRETH_NODE = 1, /* own number, parent, label (0 is blank); node 0 is the document node: 0, 0, 0 */
    CUDRETH_PLACE = 2 /* variable, its node, 0 */
};

/* A centre in the list that is lent to cudreth_draw. */
struct cudreth_centre {
    uint32_t guarantee; /* it can always draw up to this */
    uint32_t cap;       /* and never above this */
    uint32_t drawn;     /* what it has drawn; the one field that changes */
};

/* Verdicts of cudreth_solve. */
#define CUDRETH_TREE 0u  /* a tree was written to the front of the buffer */
#define CUDRETH_NONE 1u  /* no tree of any size meets the constraints */
#define CUDRETH_SPENT 2u /* the allowance ran out first; a larger one may tell */
/* Verdicts of cudreth_mark. */
#define CUDRETH_MET 0u   /* every record is met */
#define CUDRETH_UNMET 1u /* some record is not */
/* Verdict of cudreth_paths, cudreth_xml_write and cudreth_xml_read. */
#define CUDRETH_WRITTEN 0u /* the records or the text were written to the front of the buffer */
/* Verdict of cudreth_draw, and then the whole result. */
#define CUDRETH_GRANTED 0u /* the amount was added to what the centre has drawn */
/* Of all six: a question was answered with no. */
#define CUDRETH_REFUSED 3u

/*
 * The questions by number; each function asks its own in this order, but 17 before 15 and 16. cudreth_question_words says what a refusal by
 * each means.
 */
enum cudreth_question_number {
    /* of the whole constraint file, by cudreth_solve and cudreth_mark */
    CUDRETH_Q_CONSTRAINTS_LONG = 1,
    CUDRETH_Q_CONSTRAINTS_CUT = 2,
    /* of each of its records, before the next record */
    CUDRETH_Q_KIND = 3,
    CUDRETH_Q_VARIABLE = 4,
    CUDRETH_Q_LABEL = 5,
    CUDRETH_Q_UNUSED = 6,
    /* of the lent buffer, by cudreth_solve (CUDRETH_ANSWER_BYTES) and cudreth_paths (CUDRETH_RECORDS_BYTES) */
    CUDRETH_Q_BUFFER = 7,
    /* of the answer file, by cudreth_mark, and of node records alone, by cudreth_xml_write, each of all records before the next question */
    CUDRETH_Q_ANSWER_CUT = 8,
    CUDRETH_Q_ANSWER_KIND = 9, /* cudreth_xml_write refuses a place record too */
    CUDRETH_Q_NODE_COUNT = 10,
    CUDRETH_Q_NODES = 11,
    /* of the answer file, by cudreth_mark alone */
    CUDRETH_Q_PLACES = 12,
    /* of the text, by cudreth_paths alone */
    CUDRETH_Q_TEXT_FORM = 13,
    CUDRETH_Q_TEXT_VARIABLES = 14,
    /* of the nodes' labels, by cudreth_xml_write alone */
    CUDRETH_Q_XML_LABEL = 15,
    /* of the text, by cudreth_xml_read alone */
    CUDRETH_Q_XML_FORM = 16,
    /* of the lent buffer, by cudreth_xml_write (CUDRETH_XML_BYTES), before 15, and cudreth_xml_read (CUDRETH_NODES_BYTES), before 16 */
    CUDRETH_Q_XML_BUFFER = 17,
    /* of the list of centres and the draw from it, by cudreth_draw alone */
    CUDRETH_Q_CENTRES = 18, /* also where the list is sound and the centre is not in it */
    CUDRETH_Q_CAP = 19,
    CUDRETH_Q_REMAINS = 20
};

/*
 * Solves the constraint file, entering at most `allowance` alternatives. Only the verdict CUDRETH_TREE writes: cudreth_written(result)
 * bytes at the front of `answer`; all other bytes stay as they were. `answer_len` is the length lent, at least CUDRETH_ANSWER_BYTES.
 *
 * The records of an accepted file in another order get, with the same allowance and a buffer that is long enough, the same result and
 * write the same bytes; a refused file stays refused, by its first bad record. With its variables renumbered one to one an accepted file
 * still has none or a tree, whichever it had, but count and tree may change, and so may whether the allowance is enough.
 *
 * Capitals, labels 65 to 90, count as small letters: two constraint files that are equal but for the case of their labels get, with the
 * same allowance and buffers that are long enough, the same result and the same bytes. No tree that is written has a capital.
 */
uint64_t cudreth_solve(const uint8_t *constraints, size_t constraints_len, uint8_t *answer, size_t answer_len,
                       uint32_t allowance);

/*
 * Marks a candidate's answer file. With the same records in another order met stays met; position and kind are those of the first unmet
 * record in the order of the file that is marked. The case of labels, in either file, changes nothing.
 */
uint64_t cudreth_mark(const uint8_t *constraints, size_t constraints_len, const uint8_t *answer, size_t answer_len);

/*
 * Reads a text of 1 to 8 paths, each a line, and writes the constraint file that some tree meets if and only if some tree has a node
 * that every line selects; variable 0 stands for that node. Only the verdict CUDRETH_WRITTEN writes: cudreth_written(result) bytes at
 * the front of `records`; all other bytes stay as they were. `records_len` is the length lent, at least CUDRETH_RECORDS_BYTES.
 *
 * A test is a letter in either case, whose byte as it stands in the text is the label written, or `*`; names of axes are small. Two texts
 * of paths that are equal but for the case of their tests get, with buffers that are long enough, the same result, and records that are
 * equal but for the case of their labels.
 */
uint64_t cudreth_paths(const uint8_t *text, size_t text_len, uint8_t *records, size_t records_len);

/*
 * Writes a tree as XML: an element is <a> to </a> around its children, in the order of their numbers, or <a/> if it is a leaf. Its name is
 * its label, a letter in the case that it has, or _ if it is blank. There is no space and no newline, and no byte 0 behind the text; the
 * document node is not written. `nodes` has node records alone, as they stand at the front of an answer file: a place record is refused
 * with 9. Only the verdict CUDRETH_WRITTEN writes: cudreth_written(result) bytes at the front of `text`; all other bytes stay as they were.
 * `text_len` is the length lent, at least CUDRETH_XML_BYTES.
 *
 * Two trees give the same text only if they are the same ordered tree with the same labels, however their nodes are numbered.
 */
uint64_t cudreth_xml_write(const uint8_t *nodes, size_t nodes_len, uint8_t *text, size_t text_len);

/*
 * Reads a text that cudreth_xml_write writes, and writes the node records of its tree, numbered in document order: a node before its
 * children, and all that is below it before its next sibling. Only the verdict CUDRETH_WRITTEN writes: cudreth_written(result) bytes at the
 * front of `nodes`; all other bytes stay as they were. `nodes_len` is the length lent, at least CUDRETH_NODES_BYTES.
 *
 * The tree read is the one that was written, and written again it is the same text. Every other text is refused with 16, also XML that
 * says the same in other bytes: <a></a> for <a/>, or a newline at the end.
 */
uint64_t cudreth_xml_read(const uint8_t *text, size_t text_len, uint8_t *nodes, size_t nodes_len);

/*
 * Draws `amount` choices for one of the centres, which are numbered from 0, out of the `total` that they share. The list is sound if no
 * guarantee and no amount drawn exceeds its cap, and the larger of guarantee and drawn, summed over the centres, is at most `total`. A draw,
 * one of 0 too, is refused, in this order: with 18 if the list is not sound or has more than CUDRETH_CENTRES records, or if `centre` is not
 * below `centres_len`; with 19 if it would pass the centre's cap; with 20 if it would pass what remains: `total`, less what all centres have
 * drawn, less the undrawn guarantees of the others.
 *
 * A refused draw changes no record. The verdict CUDRETH_GRANTED adds `amount` to the centre's `drawn` and changes nothing else. So a sound
 * list stays sound, and from a sound list every centre can always draw up to its guarantee, whatever the others did, and never above its cap.
 *
 * The list belongs to one call at a time: threads that draw from one list take turns, by a lock of the host's.
 */
uint64_t cudreth_draw(struct cudreth_centre *centres, size_t centres_len, uint32_t total, size_t centre, uint32_t amount);

/* A result is verdict * 2^48 + middle * 2^32 + low; these take it apart. */
static inline unsigned cudreth_verdict(uint64_t result) { return (unsigned)(result >> 48); }

/* solve, CUDRETH_TREE, and paths, xml_write and xml_read, CUDRETH_WRITTEN: bytes written. */
static inline size_t cudreth_written(uint64_t result) { return (size_t)(result >> 32 & 0xffff); }

/* solve, not refused: alternatives entered. */
static inline uint32_t cudreth_count(uint64_t result) { return (uint32_t)result; }

/* mark, CUDRETH_UNMET: the kind of the first unmet record, and its position, from 0. */
static inline unsigned cudreth_unmet_kind(uint64_t result) { return (unsigned)(result >> 32 & 0xffff); }
static inline uint32_t cudreth_unmet_position(uint64_t result) { return (uint32_t)result; }

/* CUDRETH_REFUSED: the number of the question, an enum cudreth_question_number. */
static inline uint32_t cudreth_question(uint64_t result) { return (uint32_t)result; }

/* Why a file, records, a buffer, a text or a draw were refused, by the number of the question. */
static inline const char *cudreth_question_words(uint32_t question)
{
    switch (question) {
    case CUDRETH_Q_CONSTRAINTS_LONG: return "the constraint file has more than 1,024 bytes";
    case CUDRETH_Q_CONSTRAINTS_CUT: return "the length of the constraint file is not a multiple of 4";
    case CUDRETH_Q_KIND: return "the kind of a constraint record is not 1 to 9";
    case CUDRETH_Q_VARIABLE: return "a constraint record names a variable above 15";
    case CUDRETH_Q_LABEL: return "a label record has the label 0";
    case CUDRETH_Q_UNUSED: return "a byte that the record's kind does not use is not 0";
    case CUDRETH_Q_BUFFER: return "the lent buffer has less than 136 bytes for an answer, or less than 1,024 for records";
    case CUDRETH_Q_ANSWER_CUT: return "the length of the answer file, or of the node records, is not a multiple of 4";
    case CUDRETH_Q_ANSWER_KIND: return "an answer record is neither node nor place, or a node comes after a place, or a record to be written as XML is no node";
    case CUDRETH_Q_NODE_COUNT: return "there are not 2 to 64 node records";
    case CUDRETH_Q_NODES: return "a node's number is not its position or its parent is not smaller, or node 0 is not blank with parent 0 and one child";
    case CUDRETH_Q_PLACES: return "the places are not variables 0 to n-1 in order, each on a node of the tree, fourth byte 0";
    case CUDRETH_Q_TEXT_FORM: return "the text is not 1 to 8 lines of paths, each ended by byte 10, in at most 1,024 bytes";
    case CUDRETH_Q_TEXT_VARIABLES: return "the paths need more than 16 variables";
    case CUDRETH_Q_XML_LABEL: return "a label to be written as XML is neither 0 nor a letter";
    case CUDRETH_Q_XML_FORM: return "the text is not one that a tree of at most 64 nodes, the document node counted, is written as";
    case CUDRETH_Q_XML_BUFFER: return "the lent buffer has less than 512 bytes for XML, or less than 256 for node records";
    case CUDRETH_Q_CENTRES: return "the list of centres is not sound or has more than 8 records, or there is no such centre";
    case CUDRETH_Q_CAP: return "the draw would pass the centre's cap";
    case CUDRETH_Q_REMAINS: return "the draw would pass what remains after the undrawn guarantees of the others";
    default: return "a question that this version does not know";
    }
}

/* The name of a kind, as the program mark prints it. */
static inline const char *cudreth_kind_words(unsigned kind)
{
    switch (kind) {
    case CUDRETH_CHILD: return "child";
    case CUDRETH_BELOW: return "below";
    case CUDRETH_STRICTLY_BELOW: return "strictly-below";
    case CUDRETH_SAME: return "same";
    case CUDRETH_DIFFER: return "differ";
    case CUDRETH_ROOT: return "root";
    case CUDRETH_LEAF: return "leaf";
    case CUDRETH_LABEL: return "label";
    case CUDRETH_BEFORE: return "before";
    default: return "a kind that this version does not know";
    }
}

#ifdef __cplusplus
}
#endif

#endif
