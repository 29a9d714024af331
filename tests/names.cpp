// The header in C++: each struct is named without `struct`, beside the functions.
#include "../include/whakelouna.h"

whakelouna_trend_told (*trend)(whakelouna_bench, uint8_t) = whakelouna_trend;
whakelouna_master_told (*master)(whakelouna_bench, uint8_t) = whakelouna_master;
whakelouna_device_told (*device)(whakelouna_bench, uint8_t) = whakelouna_device;
whakelouna_fs_master (*first_master)(uint32_t) = whakelouna_master_first;
whakelouna_fs_device (*first_device)(uint32_t) = whakelouna_device_first;
