/* What ANALYZE looks at in columns: their width, and how many are null. It would compare each with a hundred others for
 * the most common ones, at the cost of an encoding of both, and columns are seldom equal. */
#include "pg_column.h"

#include "commands/vacuum.h"
#include "miscadmin.h"

static void compute(VacAttrStats *stats, AnalyzeAttrFetchFunc fetch, int rows, double all_rows) {
    double width = 0;
    int nulls = 0;
    for (int row = 0; row < rows; row++) {
        bool is_null = false;
        CHECK_FOR_INTERRUPTS();
        const Datum value = fetch(stats, row, &is_null);
        if (is_null) nulls++;
        else width += VARSIZE_ANY(DatumGetPointer(value));
    }
    if (rows == 0) return;
    stats->stats_valid = true;
    stats->stanullfrac = (float4)nulls / (float4)rows;
    stats->stawidth = rows > nulls ? (int32)(width / (rows - nulls)) : 0;
    stats->stadistinct = 0; /* not known */
}

HV_FUNCTION(pg_hvcolumn_analyze) {
    VacAttrStats *stats = (VacAttrStats *)PG_GETARG_POINTER(0);
    stats->compute_stats = compute;
    stats->minrows = 30000;
    PG_RETURN_BOOL(true);
}
