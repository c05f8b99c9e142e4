/* The calls of include/chukelowa.h over those that tools/unproved lets out of the module: the reply's place first, a slice as
 * the place of its pointer and length. */
#include "chukelowa.h"

typedef struct slice {
    const unsigned char *bytes;
    size_t length;
} slice;

void chukelowa_inner_read(chukelowa_reply *reply, slice *bundle, slice *tables);
void chukelowa_inner_write(chukelowa_reply *reply, slice *tables, slice *blocks);
void chukelowa_inner_check(chukelowa_reply *reply, slice *bundle, slice *work);
void chukelowa_inner_fit(chukelowa_reply *reply, slice *bundle, size_t type_row);
void chukelowa_inner_run(chukelowa_reply *reply, slice *bundle, slice *work, slice *result);
void chukelowa_inner_apply(chukelowa_reply *reply, slice *bundle, slice *work, slice *result);

chukelowa_reply chukelowa_read(const unsigned char *bundle, size_t bundle_bytes, unsigned char *tables, size_t tables_bytes)
{
    slice from = {bundle, bundle_bytes}, to = {tables, tables_bytes};
    chukelowa_reply reply;
    chukelowa_inner_read(&reply, &from, &to);
    return reply;
}

chukelowa_reply chukelowa_write(const unsigned char *tables, size_t tables_bytes, unsigned char *blocks, size_t blocks_bytes)
{
    slice from = {tables, tables_bytes}, to = {blocks, blocks_bytes};
    chukelowa_reply reply;
    chukelowa_inner_write(&reply, &from, &to);
    return reply;
}

chukelowa_reply chukelowa_check(const unsigned char *bundle, size_t bundle_bytes, unsigned char *work, size_t work_bytes)
{
    slice from = {bundle, bundle_bytes}, working = {work, work_bytes};
    chukelowa_reply reply;
    chukelowa_inner_check(&reply, &from, &working);
    return reply;
}

chukelowa_reply chukelowa_fit(const unsigned char *bundle, size_t bundle_bytes, size_t type_row)
{
    slice from = {bundle, bundle_bytes};
    chukelowa_reply reply;
    chukelowa_inner_fit(&reply, &from, type_row);
    return reply;
}

chukelowa_reply chukelowa_run(const unsigned char *bundle, size_t bundle_bytes, unsigned char *work, size_t work_bytes,
                              unsigned char *result, size_t result_bytes)
{
    slice from = {bundle, bundle_bytes}, working = {work, work_bytes}, to = {result, result_bytes};
    chukelowa_reply reply;
    chukelowa_inner_run(&reply, &from, &working, &to);
    return reply;
}

chukelowa_reply chukelowa_apply(const unsigned char *bundle, size_t bundle_bytes, unsigned char *work, size_t work_bytes,
                                unsigned char *result, size_t result_bytes)
{
    slice from = {bundle, bundle_bytes}, working = {work, work_bytes}, to = {result, result_bytes};
    chukelowa_reply reply;
    chukelowa_inner_apply(&reply, &from, &working, &to);
    return reply;
}
