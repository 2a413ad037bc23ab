/* examples/lock.s for SPIN, written by hand: each instruction is a statement, so each turn of the machine is a step.
 * bench/outcomes runs it beside `xt outcomes`:
 *
 *     spin -a -DN=50 bench/lock.pml && cc -O2 -DSAFETY -o pan pan.c && ./pan -m20000 -w24
 *
 * N is the number of additions a core. SPIN merges successive statements that touch only a core's own registers, and by
 * partial order reduction does not try such statements of both cores in both orders. It is asked less than `outcomes` is:
 * only whether what is sent is right in every order. The model has the registers that lock.s uses, and no windows.
 */
#ifndef N
#define N 10
#endif

int lock, count, sum, done;     /* memory */
byte sent;                      /* how many bytes UART0 was sent */

/* `s32c1i REGISTER, ADDRESS`: stores the register where memory holds SCOMPARE1; the register becomes what was found. */
inline s32c1i(register, word) {
    d_step {
        found = word;
        if
        :: found == scompare1 -> word = register
        :: else
        fi;
        register = found;
        found = 0
    }
}

active [2] proctype core() {
    int a3, a4, a5, scompare1, found;

    a3 = N;                     /* main: */
again:
    a4 = lock;                  /* l32ai */
    if
    :: a4 != 0 -> goto again    /* bnez */
    :: else
    fi;
    scompare1 = a4;             /* wsr */
    a4 = 1;
    s32c1i(a4, lock);
    if
    :: a4 != 0 -> goto again
    :: else
    fi;
    a4 = count;                 /* l32i */
    a5 = sum;
    a4 = a4 + 1;
    a5 = a5 + a4;
    count = a4;                 /* s32i */
    sum = a5;
    a4 = 0;
    lock = a4;                  /* s32ri */
    a3 = a3 - 1;
    if
    :: a3 != 0 -> goto again
    :: else
    fi;
next:
    a4 = done;
    scompare1 = a4;
    a5 = a4 + 1;
    s32c1i(a5, done);
    if
    :: a5 != a4 -> goto next
    :: else
    fi;
    if
    :: a5 == 0 -> goto out
    :: else
    fi;
    a4 = count;
    assert(a4 == 2 * N);
    a5 = 1000;
first:
    a3 = a4 / a5;               /* quou */
    a4 = a4 % a5;               /* remu */
    sent = sent + 1;            /* s8i */
    a5 = a5 / 10;
    if
    :: a5 != 0 -> goto first
    :: else
    fi;
    sent = sent + 1;
    a4 = sum;
    assert(a4 == N * (2 * N + 1));
    a5 = 1000000;
second:
    a3 = a4 / a5;
    a4 = a4 % a5;
    sent = sent + 1;
    a5 = a5 / 10;
    if
    :: a5 != 0 -> goto second
    :: else
    fi;
    sent = sent + 1;
out:
    skip                        /* break */
}
