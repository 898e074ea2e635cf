% Needham-Schroeder-Lowe with public keys (Lowe 1995 and 1996)
%   1. A -> B: {Na, A}pkB
%   2. B -> A: {Na, Nb, B}pkA
%   3. A -> B: {Nb}pkB
%   4. B -> A: {s}Nb     (added)
%   5. A -> B: {s}Na     (added)
% As nspk.pl, but message 2 names its sender.
% literature: secret   A drops an answer that B made while A meant another (Lowe 1996)
% answer: secret 112 1 0
% sanity: reached attacker(senc(s,nb(pk(ska),na(pk(skb)))))
% sanity: reached attacker(senc(s,na(pk(skb))))
% sanity: leak attacker(skb)

attacker(penc(M,P)) :- attacker(M), attacker(P).
attacker(pk(S)) :- attacker(S).
attacker(M) :- attacker(penc(M,pk(S))), attacker(S).
attacker(senc(M,K)) :- attacker(M), attacker(K).
attacker(M) :- attacker(senc(M,K)), attacker(K).
attacker(t2(X,Y)) :- attacker(X), attacker(Y).
attacker(X) :- attacker(t2(X,Y)).
attacker(Y) :- attacker(t2(X,Y)).
attacker(t3(X,Y,Z)) :- attacker(X), attacker(Y), attacker(Z).
attacker(X) :- attacker(t3(X,Y,Z)).
attacker(Y) :- attacker(t3(X,Y,Z)).
attacker(Z) :- attacker(t3(X,Y,Z)).

attacker(pk(ska)).
attacker(pk(skb)).
attacker(c).

attacker(penc(t2(na(pk(X)),pk(ska)),pk(X))) :- attacker(pk(X)).
attacker(penc(t3(N,nb(pk(X),N),pk(skb)),pk(X))) :- attacker(penc(t2(N,pk(X)),pk(skb))).
attacker(penc(N,pk(X))) :- attacker(pk(X)), attacker(penc(t3(na(pk(X)),N,pk(X)),pk(ska))).
attacker(senc(s,nb(pk(ska),N))) :- attacker(penc(t2(N,pk(ska)),pk(skb))), attacker(penc(nb(pk(ska),N),pk(skb))).
attacker(senc(s,na(pk(skb)))) :- attacker(penc(t3(na(pk(skb)),N,pk(skb)),pk(ska))).

?- attacker(s).
