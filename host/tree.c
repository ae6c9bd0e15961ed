#include "tree.h"

#include <string.h>

#include "cudreth.h"

#define MOST_NODES (CUDRETH_ANSWER_BYTES / CUDRETH_RECORD_BYTES)

struct tree {
    size_t nodes;
    uint8_t parent[MOST_NODES];
    uint8_t label[MOST_NODES];
    size_t variables;
    uint8_t place[MOST_NODES];
};

static struct tree tree_of(const uint8_t *answer, size_t length)
{
    struct tree tree = {0};
    for (const uint8_t *record = answer; record < answer + length; record += CUDRETH_RECORD_BYTES) {
        if (record[0] == CUDRETH_NODE) {
            tree.parent[tree.nodes] = record[2];
            tree.label[tree.nodes++] = record[3];
        } else {
            tree.place[tree.variables++] = record[2];
        }
    }
    return tree;
}

/* The next child of a node behind `after`; the number of nodes if there is none. The document node, 0, is nobody's child. */
static size_t next_child(const struct tree *tree, size_t node, size_t after)
{
    size_t child = after + 1;
    while (child < tree->nodes && tree->parent[child] != node)
        child++;
    return child;
}

static void print_label(struct buffer *buffer, const struct tree *tree, size_t node)
{
    uint8_t label = tree->label[node];
    if (node == 0)
        buffer_print(buffer, "/");
    else if (label == 0)
        buffer_print(buffer, "_");
    else if ((label >= 'a' && label <= 'z') || (label >= 'A' && label <= 'Z'))
        buffer_print(buffer, "%c", label);
    else
        buffer_print(buffer, "%d", label);
}

/* The variables on a node, with `front` before the first; nothing if there are none. */
static void print_variables(struct buffer *buffer, const struct tree *tree, size_t node, const char *front)
{
    for (size_t variable = 0; variable < tree->variables; variable++)
        if (tree->place[variable] == node) {
            buffer_print(buffer, "%s %zu", front, variable);
            front = "";
        }
}

static void draw(struct buffer *buffer, const struct tree *tree, size_t node, int depth)
{
    buffer_print(buffer, "%*s", 2 * depth, "");
    print_label(buffer, tree, node);
    print_variables(buffer, tree, node, "  var");
    buffer_print(buffer, "\n");
    for (size_t child = next_child(tree, node, node); child < tree->nodes; child = next_child(tree, node, child))
        draw(buffer, tree, child, depth + 1);
}

void tree_draw(struct buffer *buffer, const uint8_t *answer, size_t length)
{
    struct tree tree = tree_of(answer, length);
    draw(buffer, &tree, 0, 0);
}

/* The picture: a node stands over the middle of what is below it, and no two nodes of one depth over the same ground. Lengths are pixels. */

#define RADIUS 16
#define LEVEL 80 /* from one depth to the next */
#define MARGIN 24
#define DIGIT 7 /* the width of a character of a line of variables */

struct ground {
    int width[MOST_NODES];
    int centre[MOST_NODES];
    int depth[MOST_NODES];
    int deepest;
};

static int own_width(const struct tree *tree, size_t node)
{
    struct buffer text = {0};
    print_variables(&text, tree, node, "var");
    int width = (int)text.length * DIGIT;
    buffer_free(&text);
    return (width > 2 * RADIUS ? width : 2 * RADIUS) + RADIUS;
}

/* From the last node to the first, so that children come before their parents. */
static void measure(struct ground *ground, const struct tree *tree)
{
    int below[MOST_NODES] = {0};
    for (size_t node = tree->nodes; node-- > 0;) {
        int own = own_width(tree, node);
        ground->width[node] = own > below[node] ? own : below[node];
        if (node > 0)
            below[tree->parent[node]] += ground->width[node];
    }
}

static void lay_out(struct ground *ground, const struct tree *tree, size_t node, int left, int depth)
{
    ground->centre[node] = left + ground->width[node] / 2;
    ground->depth[node] = depth;
    if (depth > ground->deepest)
        ground->deepest = depth;
    int used = 0;
    for (size_t child = next_child(tree, node, node); child < tree->nodes; child = next_child(tree, node, child))
        used += ground->width[child];
    left += (ground->width[node] - used) / 2;
    for (size_t child = next_child(tree, node, node); child < tree->nodes; child = next_child(tree, node, child)) {
        lay_out(ground, tree, child, left, depth + 1);
        left += ground->width[child];
    }
}

static int height_of(const struct ground *ground, size_t node) { return MARGIN + RADIUS + LEVEL * ground->depth[node]; }

static void print_edges(struct buffer *buffer, const struct tree *tree, const struct ground *ground)
{
    buffer_print(buffer, "<g stroke=\"black\">\n");
    for (size_t node = 1; node < tree->nodes; node++) {
        size_t parent = tree->parent[node];
        buffer_print(buffer, "<line x1=\"%d\" y1=\"%d\" x2=\"%d\" y2=\"%d\"/>\n", ground->centre[parent], height_of(ground, parent),
                     ground->centre[node], height_of(ground, node));
    }
    buffer_print(buffer, "</g>\n");
}

static void print_node(struct buffer *buffer, const struct tree *tree, const struct ground *ground, size_t node)
{
    int x = ground->centre[node], y = height_of(ground, node);
    buffer_print(buffer, "<g>\n<title>node %zu</title>\n", node);
    buffer_print(buffer, "<circle cx=\"%d\" cy=\"%d\" r=\"%d\" fill=\"white\" stroke=\"black\"/>\n", x, y, RADIUS);
    buffer_print(buffer, "<text x=\"%d\" y=\"%d\">", x, y + 5);
    print_label(buffer, tree, node);
    buffer_print(buffer, "</text>\n");
    size_t before = buffer->length;
    buffer_print(buffer, "<text x=\"%d\" y=\"%d\" font-size=\"12\" stroke=\"white\" stroke-width=\"4\" paint-order=\"stroke\">", x, y + RADIUS + 14);
    size_t front = buffer->length;
    print_variables(buffer, tree, node, "var");
    if (buffer->length == front)
        buffer->length = before; /* no variable is on it */
    else
        buffer_print(buffer, "</text>\n");
    buffer_print(buffer, "</g>\n");
}

void tree_svg(struct buffer *buffer, const uint8_t *answer, size_t length)
{
    struct tree tree = tree_of(answer, length);
    struct ground ground = {0};
    measure(&ground, &tree);
    lay_out(&ground, &tree, 0, MARGIN, 0);
    int width = ground.width[0] + 2 * MARGIN;
    int height = LEVEL * ground.deepest + 2 * (MARGIN + RADIUS) + MARGIN;
    buffer_print(buffer, "<?xml version=\"1.0\" encoding=\"UTF-8\"?>\n");
    buffer_print(buffer, "<svg xmlns=\"http://www.w3.org/2000/svg\" width=\"%d\" height=\"%d\" viewBox=\"0 0 %d %d\"", width, height, width, height);
    buffer_print(buffer, " font-family=\"sans-serif\" text-anchor=\"middle\">\n<rect width=\"%d\" height=\"%d\" fill=\"white\"/>\n", width, height);
    print_edges(buffer, &tree, &ground);
    for (size_t node = 0; node < tree.nodes; node++)
        print_node(buffer, &tree, &ground, node);
    buffer_print(buffer, "</svg>\n");
}
