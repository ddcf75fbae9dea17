/* What is answered of the values in each group, group after group: a database may end the statement between two. */
#ifndef HIVEVIGIL_GROUP_FOLDS_H
#define HIVEVIGIL_GROUP_FOLDS_H
#include "float_columns.h"

/* What column_fold_by answers, of a long column in runs. It is refused in the same way, and as INTERRUPTED. */
int32_t groups_fold_by(const hv_column *keys, const hv_column *values, uint8_t fold, nan_order nans,
                       hv_column *out_keys, hv_column *out_answers, hv_error *error);

#endif
