/* The commands paths and xml: from one form of a file to another. */
#include "command.h"
#include "cudreth.h"
#include "load.h"

/* One file of a command that takes --bytes; `bytes` says whether it was asked for. */
static int read_one(struct loaded *loaded, loader *load, const char *command, int count, char **words, bool *bytes)
{
    struct arguments arguments;
    if (!arguments_read(&arguments, TAKES_BYTES, command, count, words))
        return UNUSABLE;
    *bytes = arguments.bytes;
    const char *name = only_name(&arguments, command);
    return name ? load_or_complain(loaded, load, name) : UNUSABLE;
}

static void put_records(enum side side, const uint8_t *records, size_t length, bool bytes)
{
    struct buffer text = {0};
    if (bytes)
        buffer_add(&text, records, length);
    else
        text_print_all(&text, side, records, length);
    put_out(&text);
    buffer_free(&text);
}

int paths_command(int count, char **words)
{
    static struct loaded loaded;
    bool bytes;
    int status = read_one(&loaded, load_paths, "paths", count, words, &bytes);
    if (status == FOUND)
        put_records(QUESTION, loaded.records, loaded.length, bytes);
    return status;
}

static int put_nodes_of(struct loaded *xml, bool bytes)
{
    uint8_t nodes[CUDRETH_NODES_BYTES];
    uint64_t result = cudreth_xml_read(xml->records, xml->length, nodes, sizeof nodes);
    if (cudreth_verdict(result) == CUDRETH_REFUSED) {
        refuse_text(xml, cudreth_question(result));
        return complain_refused(xml);
    }
    put_records(ANSWER, nodes, cudreth_written(result), bytes);
    return FOUND;
}

static int put_xml_of(struct loaded *tree)
{
    uint8_t text[CUDRETH_XML_BYTES];
    uint64_t result = cudreth_xml_write(tree->records, nodes_alone(tree), text, sizeof text);
    if (cudreth_verdict(result) == CUDRETH_REFUSED) {
        refuse_answer(tree, cudreth_question(result), NULL);
        return complain_refused(tree);
    }
    struct buffer line = {0};
    buffer_add(&line, text, cudreth_written(result));
    buffer_add(&line, "\n", 1);
    put_out(&line);
    buffer_free(&line);
    return FOUND;
}

int xml_command(int count, char **words)
{
    static struct loaded loaded;
    bool bytes;
    int status = read_one(&loaded, load_tree, "xml", count, words, &bytes);
    if (status != FOUND)
        return status;
    return loaded.form == XML ? put_nodes_of(&loaded, bytes) : put_xml_of(&loaded);
}
