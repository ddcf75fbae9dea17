/* The sizes and places that docs/ABI.md promises: what was compiled against one version runs with the next. */
#include "hivevigil_tables.h"
#include <stdio.h>

#define SIZE(type, bytes) _Static_assert(sizeof(type) == (bytes), #type)
#define PLACE(type, field, byte) _Static_assert(offsetof(type, field) == (byte), #type "." #field)

SIZE(hv_column, 8);
SIZE(hv_builder, 8);
SIZE(hv_table, 8);
SIZE(hv_error, 24);
PLACE(hv_error, third, 16);
SIZE(hv_kind, 4);
PLACE(hv_kind, scale, 3);
SIZE(hv_value, 24);
PLACE(hv_value, kind, 16);
PLACE(hv_value, truth, 17);
PLACE(hv_value, scale, 18);
SIZE(hv_total, 24);
PLACE(hv_total, empty, 17);
PLACE(hv_total, scale, 18);
SIZE(hv_pair, 16);
PLACE(hv_pair, high, 8);
SIZE(hv_session, 80);
PLACE(hv_session, size, 0);
PLACE(hv_session, prefill_runs, 8);
PLACE(hv_session, kernels, 64);
SIZE(hv_settings, 72);
PLACE(hv_settings, kernels, 56);

/* What the library writes lies where the header says: every byte of the session, and none after it. */
int main(void) {
    struct {
        hv_session session;
        unsigned char behind[8];
    } room;
    for (size_t byte = 0; byte < sizeof room; byte++) ((unsigned char *)&room)[byte] = 0xA5;
    hv_session_initial(&room.session);
    int wrong = room.session.size != sizeof room.session;
    for (size_t kernel = 0; kernel < 12; kernel++) wrong += room.session.kernels[kernel] != 1;
    for (size_t byte = 0; byte < sizeof room.behind; byte++) wrong += room.behind[byte] != 0xA5;
    wrong += room.session.prefill_runs == 0xA5A5A5A5A5A5A5A5u;
    hv_column column = HV_EMPTY;
    hv_table table = HV_EMPTY;
    wrong += hv_kind_of(&column).number != 255 || hv_form(&column) != HV_FORM_NONE;
    wrong += hv_table_len(&table) != 0 || hv_table_width(&table) != 0;
    puts(wrong ? "layouts differ" : "sizes and places are those of the page");
    return wrong != 0;
}
