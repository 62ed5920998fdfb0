/* Marks that a mapping tool keeps as text: read, indexed and asked; then the table is spelled again, last mark first, through its descriptor. */
#include <kalinosz.h>
#include <stdio.h>
#include <string.h>

int main(void)
{
    const char *line = "multilinestring((0 2,6 +2),( 4 0 , 4 5 ),(9 9,9 9))";
    enum { CELLS = 12, ROOM = 48 * 3 + 21 };
    int32_t cells[CELLS], index[64], numbers[2];
    uint8_t text[ROOM];

    kalinosz_reply read = kalinosz_read_wkt((const uint8_t *)line, strlen(line), cells, CELLS);
    printf("read: answer %d, %d marks\n", (int)read.number, (int)read.count);

    kalinosz_reply built = kalinosz_build(cells, CELLS, 1, 0, 1, read.count, 4, 1, index, 64);
    kalinosz_reply asked = kalinosz_query(index, (size_t)built.count, 3, 5, 1, 3, numbers, 2);
    printf("window 3..5 by 1..3:");
    for (int k = 0; k < asked.count; k++) printf(" %d", (int)numbers[k]);
    printf("\n");

    kalinosz_reply written = kalinosz_write_wkt(cells, CELLS, 1, 8, 1, read.count, -4, 1, text, ROOM);
    printf("%.*s\n", (int)written.count, (const char *)text);

    const char *point = "MULTILINESTRING ((0 2, 6 2.5))";
    kalinosz_reply refused = kalinosz_read_wkt((const uint8_t *)point, strlen(point), cells, CELLS);
    printf("a decimal point: answer %d at byte %d, '%c'\n", (int)refused.number, (int)refused.position, point[refused.position]);
    return 0;
}
