% Denning-Sacco, corrected: the signature names both ends (Abadi and Needham 1996)
%   1. A -> B: {{pkA, pkB, k}skA}pkB
%   2. B -> A: {s}k
% As denningsacco.pl, but B accepts k only from a signature made for B's own key.
% literature: secret   a key that A signed for the attacker no longer fits B
% answer: secret 38 1 0
% sanity: reached attacker(sencrypt(s,k(pk(skb))))
% sanity: leak attacker(skb)

attacker(pencrypt(M,Pk)) :- attacker(M), attacker(Pk).
attacker(pk(Sk)) :- attacker(Sk).
attacker(M) :- attacker(pencrypt(M,pk(Sk))), attacker(Sk).
attacker(sign(M,Sk)) :- attacker(M), attacker(Sk).
attacker(M) :- attacker(sign(M,Sk)).
attacker(sencrypt(M,K)) :- attacker(M), attacker(K).
attacker(M) :- attacker(sencrypt(M,K)), attacker(K).
attacker(t3(X,Y,Z)) :- attacker(X), attacker(Y), attacker(Z).
attacker(X) :- attacker(t3(X,Y,Z)).
attacker(Y) :- attacker(t3(X,Y,Z)).
attacker(Z) :- attacker(t3(X,Y,Z)).

attacker(pk(ska)).
attacker(pk(skb)).
attacker(a).

attacker(pencrypt(sign(t3(pk(ska),pk(X),k(pk(X))),ska),pk(X))) :- attacker(pk(X)).
attacker(sencrypt(s,K)) :- attacker(pencrypt(sign(t3(pk(ska),pk(skb),K),ska),pk(skb))).

?- attacker(s).
