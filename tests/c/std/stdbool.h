/* The kit's clang brings no header files: those of this folder stand in for them. */
#pragma once
#ifndef __cplusplus
#define bool _Bool
#define true 1
#define false 0
#endif
