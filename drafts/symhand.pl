% Key transport over a shared key, with a challenge (after ISO/IEC 11770-2, mechanism 4)
%   1. A -> B: Na
%   2. B -> A: {Na, A, k}Kab
%   3. A -> B: {s}k
% Kab is shared by A and B alone. B answers any challenge; k is a function of it.
% literature: secret   only B can put a key under Kab, and it is never sent otherwise
% answer: secret 20 1 0
% sanity: reached attacker(senc(s,k(na)))
% sanity: leak attacker(kab)

attacker(senc(M,K)) :- attacker(M), attacker(K).
attacker(M) :- attacker(senc(M,K)), attacker(K).
attacker(t3(X,Y,Z)) :- attacker(X), attacker(Y), attacker(Z).
attacker(X) :- attacker(t3(X,Y,Z)).
attacker(Y) :- attacker(t3(X,Y,Z)).
attacker(Z) :- attacker(t3(X,Y,Z)).

attacker(ha).
attacker(hb).

attacker(na).
attacker(senc(t3(N,ha,k(N)),kab)) :- attacker(N).
attacker(senc(s,K)) :- attacker(senc(t3(na,ha,K),kab)).

?- attacker(s).
