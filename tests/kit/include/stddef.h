/* Sizes, as the compiler knows them: the kit has no C headers. */
#pragma once
typedef __SIZE_TYPE__ size_t;
#define NULL ((void *)0)
