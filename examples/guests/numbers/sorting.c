// Quicksort of 500 numbers, and insertion sort of 60, by signed comparison.
#include "told.h"

static int items[500];

static void quick(int low, int high) {
    if (low >= high) return;
    int pivot = items[(low + high) / 2], i = low, j = high;
    while (i <= j) {
        while (items[i] < pivot) i++;
        while (items[j] > pivot) j--;
        if (i <= j) { int held = items[i]; items[i] = items[j]; items[j] = held; i++; j--; }
    }
    quick(low, j);
    quick(i, high);
}

static void insertion(int count) {
    for (int i = 1; i < count; i++) {
        int held = items[i], j = i;
        while (j > 0 && items[j - 1] > held) { items[j] = items[j - 1]; j--; }
        items[j] = held;
    }
}

static unsigned summed(int count) {
    unsigned sum = 0;
    for (int i = 0; i < count; i++) sum = sum * 31 + (unsigned)items[i];
    return sum;
}

PROGRAM {
    for (int i = 0; i < 500; i++) items[i] = (int)drawn() - 8000000;
    quick(0, 499);
    told(summed(500));
    told((unsigned)items[0]);
    told((unsigned)items[499]);
    for (int i = 0; i < 60; i++) items[i] = (int)(drawn() % 100) - 50;
    insertion(60);
    told(summed(60));
}
