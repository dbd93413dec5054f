/* Tries every call of gurthapen.h: good ones against document 01's figures and against each other, every refusal, and their order. */
#include "try.h"

unsigned tried, failed;

int main(void) {
    try_coder();
    try_frames();
    try_record();
    try_trip();
    try_order();
    try_guard();
    try_bits();
    printf("%u checks, %u failed\n", tried, failed);
    return failed != 0;
}
