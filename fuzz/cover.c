/* Replays inputs and tells which functions of the module they do not reach: cover FOLDER. A line for each is its address, as `nm` has it
 * where the program is linked without -pie. On standard error stands how many there are, and how many places of functions. */
#include <dirent.h>
#include <stdint.h>
#include <stdio.h>
#include <stdlib.h>

int LLVMFuzzerTestOneInput(const uint8_t *data, size_t size);
void __sanitizer_cov_8bit_counters_init(uint8_t *start, uint8_t *stop);
void __sanitizer_cov_pcs_init(const uintptr_t *start, const uintptr_t *stop);

/* A counter for each place; two words for each, of which the first is its address and the last bit of the second says that a function
 * begins there. */
static uint8_t *counters;
static uint8_t *reached;
static size_t count;
static const uintptr_t *places;

void __sanitizer_cov_8bit_counters_init(uint8_t *start, uint8_t *stop) {
    counters = start;
    count = (size_t)(stop - start);
}

void __sanitizer_cov_pcs_init(const uintptr_t *start, const uintptr_t *stop) {
    places = start;
    (void)stop;
}

/* Notes what an input reached. A counter begins anew at 256. */
static void note(void) {
    for (size_t k = 0; k < count; k++) {
        reached[k] |= counters[k] != 0;
        counters[k] = 0;
    }
}

static size_t replay(const char *folder) {
    static uint8_t data[1 << 20];
    size_t inputs = 0;
    DIR *entries = opendir(folder);
    if (entries == NULL) return 0;
    for (struct dirent *entry; (entry = readdir(entries)) != NULL;) {
        char path[4096];
        snprintf(path, sizeof path, "%s/%s", folder, entry->d_name);
        FILE *file = entry->d_name[0] == '.' ? NULL : fopen(path, "rb");
        if (file == NULL) continue;
        const size_t size = fread(data, 1, sizeof data, file);
        fclose(file);
        LLVMFuzzerTestOneInput(data, size);
        note();
        inputs++;
    }
    closedir(entries);
    return inputs;
}

int main(int words, char **word) {
    reached = calloc(count, 1);
    if (reached == NULL) return 2;
    const size_t inputs = words > 1 ? replay(word[1]) : 0;
    size_t sum = 0, functions = 0, entered = 0;
    for (size_t k = 0; k < count; k++) {
        const int is_function = places[2 * k + 1] & 1;
        sum += reached[k];
        functions += is_function;
        entered += is_function && reached[k];
        if (is_function && !reached[k]) printf("%016lx\n", (unsigned long)places[2 * k]);
    }
    fprintf(stderr, "fuzz: %zu inputs reach %zu of %zu functions, %zu of %zu places\n", inputs, entered, functions, sum, count);
    return inputs == 0;
}
