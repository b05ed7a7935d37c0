/* The groups of tests, each over every exported function of its part. */
#ifndef GROUPS_H
#define GROUPS_H

#include "check.h"

/* policy E of the scope paper, and a root secret */
#define E "LBSUITE   \0\2" "LBCURVES  \0\3" "LBCONV32  \0\5" "LBACCRUED \0\4" "OV\0\1" "OV\0\2" "OV\1\3" "OV\2\3"
#define E_NAMES "SUITE   CURVES  CONV32  ACCRUED "
#define ROOT "\0\1\2\3\4\5\6\7\10\11\12\13\14\15\16\17\20\21\22\23\24\25\26\27\30\31\32\33\34\35\36\37"

/* "abc" sealed for CONV32, where its secret is ROOT; made by Python's package cryptography */
#define NONCE "\0\0\0\0\0\0\0\0\0\0\0\1"
#define SEALED "SMCONV32  " NONCE "\346\363\167" "\151\371\172\361\075\211\212\264\111\305\372\306\100\153\226\224"

/* a roster of E: 1 joins SUITE, 2 joins CONV32, moves to CURVES and is held, 3 joins ACCRUED and is withdrawn */
#define WORKED "JN\0\1SUITE   " "JN\0\2CONV32  " "MV\0\2CURVES  " "HD\0\2" "JN\0\3ACCRUED " "WD\0\3"

/* 64 labels and 512 pairs, with the text of its plan and that of what one more account costs; the drawing of E */
#define FULL_POLICY "tests/plan/full.policy"
#define FULL_TEXT "tests/plan/full.txt"
#define FULL_GROWTH "tests/plan/full-growth.txt"
#define E_DRAWING "tests/c/e.dot"

void hashes(void);
void policies(void);
void plans(void);
void growth(void);
void rosters(void);
void texts(void);
void issuing(void);
void fingerprints(void);
void deriving(void);
void names(void);
void sealing(void);
void rooms(void);
void answers(void);
void threads(void);
void roster_threads(void);

#endif
