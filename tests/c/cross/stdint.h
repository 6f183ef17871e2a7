/* For the cross build on Arm, where no C headers for x86-64 are: the types that include/refdesk.h and the tests use. */
#pragma once
typedef __INT32_TYPE__ int32_t;
typedef __UINT8_TYPE__ uint8_t;
typedef __UINT64_TYPE__ uint64_t;
