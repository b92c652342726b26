/* Whose each result is: reads the record text of messages on standard input, and prints the patient, the specimen, the
 * test and the value of each result. The messages are read where they are; nothing but the array of places is kept. */
#include "print.h"

int main(void) {
    static uint8_t input[1 << 20];
    return print_messages(input, fread(input, 1, sizeof input, stdin)) ? 0 : 1;
}
