#include "build.h"

#include <stdlib.h>
#include <string.h>

void build_free(struct build *build)
{
    free(build->lent.table);
    free(build->lent.records);
    free(build->lent.pool);
    free(build->lent.text);
    free(build->columns);
    free(build->lines);
    text_free(&build->printed);
}

void build_room(struct build *build, size_t line_len)
{
    struct screen_lent *s = &build->lent;
    size_t records = (size_t)s->used + line_len + 2, values = s->pool_len / SCREEN_VALUE_BYTES + line_len;
    s->records = grown(s->records, &s->records_room, SCREEN_RECORD_BYTES * records, 1);
    s->pool = grown(s->pool, &s->pool_room, SCREEN_VALUE_BYTES * values + 1, 1);
    s->text = grown(s->text, &s->text_room, s->text_len + line_len + 1, 1);
    s->table = grown(s->table, &s->table_room, s->table_len + 1, 1);
}

void build_lend(struct build *build)
{
    struct screen_lent *s = &build->lent;
    size_t used = SCREEN_RECORD_BYTES * (size_t)s->used, most = SCREEN_RECORD_BYTES * SCREEN_MAX_RECORDS;
    s->records_len = used > most ? used : most;
    s->records = grown(s->records, &s->records_room, s->records_len, 1);
    memset(s->records + used, 0, s->records_len - used);
}

static bool has_name(const struct column *column, struct slice name)
{
    return strlen(column->name) == name.len && memcmp(column->name, name.at, name.len) == 0;
}

size_t find_column(const struct build *build, struct slice name)
{
    size_t column = 0;
    while (column < build->lent.table_len && !has_name(&build->columns[column], name))
        column++;
    return column;
}

size_t nearest_column(const struct build *build, struct slice name)
{
    size_t nearest = build->lent.table_len, least = 3;
    for (size_t i = 0; i < build->lent.table_len; i++) {
        struct slice other = {build->columns[i].name, strlen(build->columns[i].name)};
        size_t far = edits(name, other);
        if (far < least && 2 * far < other.len) {
            nearest = i;
            least = far;
        }
    }
    return nearest;
}

void add_column(struct build *build, struct slice name, uint8_t type, size_t line)
{
    size_t column = build->lent.table_len;
    build->columns = grown(build->columns, &build->columns_room, column + 1, sizeof *build->columns);
    memcpy(build->columns[column].name, name.at, name.len);
    build->columns[column].name[name.len] = '\0';
    build->columns[column].line = line;
    screen_declare(&build->lent, type);
}

bool is_division(struct screen_record fields)
{
    return fields.kind == SCREEN_KIND_BINARY &&
           (fields.code == SCREEN_OP_FLOOR_DIVIDE || fields.code == SCREEN_OP_MODULUS);
}

unsigned type_of(const struct build *build, uint32_t record)
{
    struct screen_record fields = screen_record_at(&build->lent, record);
    switch (fields.kind) {
    case SCREEN_KIND_COLUMN:
        return build->lent.table[fields.a];
    case SCREEN_KIND_LITERAL:
    case SCREEN_KIND_NULL:
    case SCREEN_KIND_LIST:
        return fields.type;
    case SCREEN_KIND_BINARY:
        return is_division(fields) ? SCREEN_TYPE_INT : SCREEN_TYPE_TRUTH;
    default:
        return SCREEN_TYPE_TRUTH;
    }
}

bool fit_types(struct build *build, const uint32_t *inputs, size_t count, uint8_t otherwise)
{
    unsigned type = 0;
    for (size_t i = 0; i < count && type == 0; i++)
        type = type_of(build, inputs[i]);
    if (type == 0)
        type = otherwise;
    for (size_t i = 0; i < count; i++)
        if (type_of(build, inputs[i]) == 0)
            build->lent.records[SCREEN_RECORD_BYTES * (size_t)inputs[i] + 2] = (uint8_t)type;
    return type != 0;
}

void add_line(struct build *build, size_t number, struct slice text, uint32_t root)
{
    struct screen_lent *s = &build->lent;
    struct typed_line line = {number, text, root, s->used, s->pool_len, s->text_len};
    build->top = build->line_count == 0 ? root : screen_put_and(s, build->top, root);
    s->root = build->top;
    build->lines = grown(build->lines, &build->lines_room, build->line_count + 1, sizeof *build->lines);
    build->lines[build->line_count++] = line;
}
