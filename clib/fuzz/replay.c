/*
 * Hears the inputs that a fuzzer has kept: `replay FILE..`. clib/check runs this with the checks of the compiler, and needs no
 * fuzzer.
 */
#include <stdint.h>
#include <stdio.h>
#include <stdlib.h>

#define MOST_BYTES (1 << 20)

int LLVMFuzzerTestOneInput(const uint8_t *data, size_t size);

/* Hears a file. Its bytes are in memory of just that length, so that one read too far is seen. */
static int hear(const char *path)
{
	static uint8_t bytes[MOST_BYTES];
	FILE *file = fopen(path, "rb");
	if (!file)
		return 1;
	size_t size = fread(bytes, 1, sizeof bytes, file);
	fclose(file);
	uint8_t *copy = malloc(size ? size : 1);
	for (size_t i = 0; copy && i < size; i++)
		copy[i] = bytes[i];
	if (copy)
		LLVMFuzzerTestOneInput(copy, size);
	free(copy);
	return !copy;
}

int main(int argc, char **argv)
{
	for (int i = 1; i < argc; i++)
		if (hear(argv[i])) {
			printf("%s can't be read\n", argv[i]);
			return 1;
		}
	printf("%d inputs\n", argc - 1);
	return 0;
}
