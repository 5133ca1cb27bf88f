/* The program receipt: the receipts of standard input, of the crate `receiving`, and the status that goes with them: 0
   where every word was accepted, 1 where one was refused, 2 where the input or the output failed. */
#include <stdint.h>

uint8_t receipt_status(void);

int main(void) { return receipt_status(); }
