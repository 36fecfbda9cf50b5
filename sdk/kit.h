/* What the files of the library tell each other. */
#ifndef KIT_H
#define KIT_H

enum {
    CHANNELS = 16,                  /* descriptors 0 to 15 are the channels; files have those from here on */
    WORDS = 15,                     /* the input channel of a run's words, and the output channel of its files' names */
    LONGEST_NAME = 1024,            /* of a file, with the 0 behind it */
    HERE = -100                     /* the folder that Linux takes names from */
};

/* Under qemu-riscv32 the stack lies far above what jet's memory could reach; words, files, heap and clock are then
   Linux's. */
int kit_is_under_qemu(void);

/* The result of a call as C's functions answer it: -1 and errno where it is negative, a fault. */
int kit_answer(int result);

/* A call of Linux, for a program that runs under qemu-riscv32. */
int kit_linux_call(int number, ...);

/* What the run was handed on channel 15, `words_size` bytes: texts that each end with a 0. */
extern char *kit_words;
extern unsigned kit_words_size;

/* What main gets. */
extern char **kit_main_argv;

/* Nanoseconds since 1970. */
unsigned long long kit_now(void);

/* Writes what stands in the buffers of all streams. */
void kit_flush_streams(void);

/* Writes on an output channel, and counts it: as jet_write. */
int kit_write_channel(int channel, const void *bytes, unsigned length);

/* How many bytes were written so on each output channel. */
extern unsigned kit_written[CHANNELS];

/* Called at the run's end, where there are files: it hands on those that were made. */
extern void (*kit_hand_files)(void);

#endif
