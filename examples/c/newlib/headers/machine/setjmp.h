/* What setjmp keeps, in the words of ../../setjmp.s: a0 to a3 and, as far as the call of setjmp left them below it,
   a4 to a11 of the function that called it; where a4 to a11 lie in memory; the return address. */
typedef int jmp_buf[14];
