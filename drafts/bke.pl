% Bilateral key exchange with public keys (Clark and Jacob 1997)
%   1. B -> A: B, {Nb, B}pkA
%   2. A -> B: {h(Nb), Na, A, K}pkB
%   3. B -> A: {h(Na)}K
%   4. A -> B: {s}K      (added; B sends the like)
% Public keys stand for identities. h is a hash: a constructor without destructor.
% B starts with anyone, A answers anyone; K is a function of what A received.
% literature: secret   no attack is known (Clark and Jacob 1997)
% answer: secret 158 1 0
% sanity: reached attacker(senc(s,k(pk(skb),nb(pk(ska)))))
% sanity: leak attacker(skb)

attacker(penc(M,P)) :- attacker(M), attacker(P).
attacker(pk(S)) :- attacker(S).
attacker(M) :- attacker(penc(M,pk(S))), attacker(S).
attacker(senc(M,K)) :- attacker(M), attacker(K).
attacker(M) :- attacker(senc(M,K)), attacker(K).
attacker(h(X)) :- attacker(X).
attacker(t2(X,Y)) :- attacker(X), attacker(Y).
attacker(X) :- attacker(t2(X,Y)).
attacker(Y) :- attacker(t2(X,Y)).
attacker(t4(X,Y,Z,W)) :- attacker(X), attacker(Y), attacker(Z), attacker(W).
attacker(X) :- attacker(t4(X,Y,Z,W)).
attacker(Y) :- attacker(t4(X,Y,Z,W)).
attacker(Z) :- attacker(t4(X,Y,Z,W)).
attacker(W) :- attacker(t4(X,Y,Z,W)).

attacker(pk(ska)).
attacker(pk(skb)).
attacker(c).

% message 1
attacker(penc(t2(nb(pk(X)),pk(skb)),pk(X))) :- attacker(pk(X)).
% message 2
attacker(penc(t4(h(N),na(pk(X),N),pk(ska),k(pk(X),N)),pk(X))) :- attacker(penc(t2(N,pk(X)),pk(ska))).
% message 3
attacker(senc(h(M),K)) :- attacker(penc(t4(h(nb(pk(X))),M,pk(X),K),pk(skb))).
% message 4, from A and from B
attacker(senc(s,k(pk(skb),N))) :- attacker(penc(t2(N,pk(skb)),pk(ska))), attacker(senc(h(na(pk(skb),N)),k(pk(skb),N))).
attacker(senc(s,K)) :- attacker(penc(t4(h(nb(pk(ska))),M,pk(ska),K),pk(skb))).

?- attacker(s).
