/* Questions, answers and trees, from files of any form to the bytes that the archive is asked about. */
#ifndef LOAD_H
#define LOAD_H

#include "file.h"
#include "text.h"

enum form { BYTES, RECORDS, PATHS, XML };

/* The place of a refusal: of bytes a record, of text a spot. Refusals of a whole file have none. */
enum whereabouts { NOWHERE, AT_RECORD, AT_SPOT };

struct refusal {
    uint32_t number; /* 0: no question of the archive's, but what `words` says */
    struct buffer words;
    enum whereabouts where;
    size_t record;
    struct spot spot;
};

/* A file that was read, and its records. */
struct loaded {
    struct file file;
    enum form form;
    const uint8_t *records;
    size_t length;
    uint8_t *room; /* for the records of a text */
    bool refused;
    struct refusal refusal; /* if it is */
};

/* Answers NULL, or why the file cannot be read. The archive has yet to be asked about the records; what it does not get to see is refused here. */
typedef const char *loader(struct loaded *loaded, const char *name);
loader load_question;
loader load_answer;
loader load_paths; /* any file is taken for a text of paths */
loader load_tree;  /* an answer, or XML as it stands, without a newline at its end */
/* How many bytes its nodes are, if only places are behind them, which XML has not; else all of it. */
size_t nodes_alone(const struct loaded *tree);

/* Asks the archive about a question alone, without an answer. */
void judge_question(struct loaded *question);

/* Records a refusal of the archive's, with its place. A question is needed only for 12. */
void refuse_question(struct loaded *question, uint32_t number);
void refuse_answer(struct loaded *answer, uint32_t number, const struct loaded *question);
void refuse_text(struct loaded *text, uint32_t number);

/* Of a command that reads one file: FOUND, or the exit status, with the complaint printed. */
int load_or_complain(struct loaded *loaded, loader *load, const char *name);
/* Prints the refusal on standard error; REFUSED. */
int complain_refused(const struct loaded *loaded);

/* "refused NUMBER: WORDS (PLACE)"; `within`, if it is not NULL, is the name of the file that the place is in. */
void refusal_print(struct buffer *buffer, const struct refusal *refusal, const char *within);

#endif
