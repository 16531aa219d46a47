// Arrays in memory: insertion sort, quick sort, heap sort, binary search, and the sieve of Eratosthenes on a local array.
#include "module.h"

#define ROOM 200

static int32_t items[ROOM];

// Fills the front of the array with numbers that follow from a seed; gives how many.
static uint32_t fill(uint32_t seed, uint32_t length)
{
    uint32_t count = length % (ROOM + 1);
    for (uint32_t i = 0; i < count; i++) {
        seed ^= seed << 13;
        seed ^= seed >> 17;
        seed ^= seed << 5;
        items[i] = (int32_t)(seed % 2001) - 1000;
    }
    return count;
}

// A digest of the array, which tells its order.
static uint64_t digest_of(uint32_t count)
{
    uint64_t digest = count;
    for (uint32_t i = 0; i < count; i++) {
        digest = taken(digest, (uint64_t)(int64_t)items[i]);
    }
    return digest;
}

static void insertion_sort(uint32_t count)
{
    for (uint32_t i = 1; i < count; i++) {
        int32_t item = items[i];
        uint32_t place = i;
        while (place > 0 && items[place - 1] > item) {
            items[place] = items[place - 1];
            place--;
        }
        items[place] = item;
    }
}

static __attribute__((noinline)) void quick_sort(int32_t low, int32_t high)
{
    while (low < high) {
        int32_t middle = items[low + (high - low) / 2];
        int32_t left = low;
        int32_t right = high;
        while (left <= right) {
            while (items[left] < middle) {
                left++;
            }
            while (items[right] > middle) {
                right--;
            }
            if (left <= right) {
                int32_t item = items[left];
                items[left++] = items[right];
                items[right--] = item;
            }
        }
        quick_sort(low, right);
        low = left;
    }
}

static void sink(uint32_t root, uint32_t count)
{
    for (uint32_t child = 2 * root + 1; child < count; child = 2 * root + 1) {
        if (child + 1 < count && items[child] < items[child + 1]) {
            child++;
        }
        if (items[root] >= items[child]) {
            return;
        }
        int32_t item = items[root];
        items[root] = items[child];
        items[child] = item;
        root = child;
    }
}

static void heap_sort(uint32_t count)
{
    for (uint32_t root = count / 2; root > 0; root--) {
        sink(root - 1, count);
    }
    for (uint32_t last = count; last > 1; last--) {
        int32_t item = items[0];
        items[0] = items[last - 1];
        items[last - 1] = item;
        sink(0, last - 1);
    }
}

uint64_t EXPORTED(sorted_by_insertion)(uint32_t seed, uint32_t length)
{
    uint32_t count = fill(seed, length);
    insertion_sort(count);
    return digest_of(count);
}

uint64_t EXPORTED(sorted_by_parts)(uint32_t seed, uint32_t length)
{
    uint32_t count = fill(seed, length);
    quick_sort(0, (int32_t)count - 1);
    return digest_of(count);
}

uint64_t EXPORTED(sorted_by_heap)(uint32_t seed, uint32_t length)
{
    uint32_t count = fill(seed, length);
    heap_sort(count);
    return digest_of(count);
}

// The place of a number in the sorted array, or where it would stand, as a negative number less one.
int32_t EXPORTED(place_of)(uint32_t seed, uint32_t length, int32_t wanted)
{
    uint32_t count = fill(seed, length);
    insertion_sort(count);
    uint32_t low = 0;
    uint32_t high = count;
    while (low < high) {
        uint32_t middle = low + (high - low) / 2;
        if (items[middle] == wanted) {
            return (int32_t)middle;
        }
        if (items[middle] < wanted) {
            low = middle + 1;
        } else {
            high = middle;
        }
    }
    return -(int32_t)low - 1;
}

// How many primes there are below a limit of at most 1024.
uint32_t EXPORTED(primes_below)(uint32_t limit)
{
    uint8_t composite[1024];
    if (limit > sizeof composite) {
        limit = sizeof composite;
    }
    for (uint32_t i = 0; i < limit; i++) {
        composite[i] = i < 2;
    }
    uint32_t primes = 0;
    for (uint32_t i = 2; i < limit; i++) {
        primes += composite[i] == 0;
        for (uint32_t j = i * i; composite[i] == 0 && j < limit; j += i) {
            composite[j] = 1;
        }
    }
    return primes;
}

uint64_t EXPORTED(all)(void)
{
    uint64_t digest = 0;
    for (uint32_t i = 1; i < 9; i++) {
        digest = taken(digest, sorted_by_insertion(i, 11 * i));
        digest = taken(digest, sorted_by_parts(i, 13 * i));
        digest = taken(digest, sorted_by_heap(i, 12 * i));
        digest = taken(digest, (uint32_t)place_of(i, 100, (int32_t)i * 110 - 400));
        digest = taken(digest, primes_below(i * 100));
    }
    return digest;
}
