% Skeme, main mode (Krawczyk 1996)
%   1. A -> B: {Ka, A}pkB, g(x)
%   2. B -> A: {Kb}pkA, g(y), mac((g(y), g(x), B, A), K0)      with K0 = k0(Ka, Kb)
%   3. A -> B: mac((g(x), g(y), A, B), K0)
%   4. A -> B: {s}f(x, g(y))       (added; B sends the like under f(y, g(x)))
% Public keys stand for identities. mac and k0 are hashes: no destructor. f, g, h0 and
% h1 are those of dhpassive.pl. A starts with anyone, B answers anyone; Ka and x are
% functions of A's partner, Kb and y of what B received.
% literature: secret   secure (Blanchet 2001, Figure 5)
% note: 512 records are too few; a table of 2000 holds the completion, 1717 records, and then the answer is secret. See skemelean.pl
% answer: room 5 512 0 0

attacker(penc(M,P)) :- attacker(M), attacker(P).
attacker(pk(S)) :- attacker(S).
attacker(M) :- attacker(penc(M,pk(S))), attacker(S).
attacker(senc(M,K)) :- attacker(M), attacker(K).
attacker(M) :- attacker(senc(M,K)), attacker(K).
attacker(t2(X,Y)) :- attacker(X), attacker(Y).
attacker(X) :- attacker(t2(X,Y)).
attacker(Y) :- attacker(t2(X,Y)).
attacker(mac(X,Y,Z,W,K)) :- attacker(X), attacker(Y), attacker(Z), attacker(W), attacker(K).
attacker(k0(X,Y)) :- attacker(X), attacker(Y).
attacker(g(X)) :- attacker(X).
attacker(h0(X,Y)) :- attacker(X), attacker(Y).
attacker(h1(X,Y)) :- attacker(X), attacker(Y).
attacker(h1(X,Y)) :- attacker(Y), attacker(g(X)).
attacker(h1(X,Y)) :- attacker(X), attacker(g(Y)).

attacker(pk(ska)).
attacker(pk(skb)).
attacker(c).

% message 1
attacker(penc(t2(ka(pk(Z)),pk(ska)),pk(Z))) :- attacker(pk(Z)).
attacker(g(x(pk(Z)))) :- attacker(pk(Z)).
% message 2, its three parts
attacker(penc(kb(pk(Z),K),pk(Z))) :- attacker(penc(t2(K,pk(Z)),pk(skb))).
attacker(g(y(P,X))) :- attacker(P), attacker(X).
attacker(mac(g(y(pk(Z),X)),X,pk(skb),pk(Z),k0(K,kb(pk(Z),K)))) :- attacker(X), attacker(penc(t2(K,pk(Z)),pk(skb))).
% message 3
attacker(mac(g(x(pk(Z))),Y,pk(ska),pk(Z),k0(ka(pk(Z)),L))) :- attacker(penc(L,pk(ska))), attacker(mac(Y,g(x(pk(Z))),pk(Z),pk(ska),k0(ka(pk(Z)),L))).
% message 4 from A, who means B
attacker(senc(s,h1(Y,x(pk(skb))))) :- attacker(penc(L,pk(ska))), attacker(mac(g(Y),g(x(pk(skb))),pk(skb),pk(ska),k0(ka(pk(skb)),L))).
attacker(senc(s,h1(x(pk(skb)),Y))) :- attacker(penc(L,pk(ska))), attacker(mac(g(Y),g(x(pk(skb))),pk(skb),pk(ska),k0(ka(pk(skb)),L))).
attacker(senc(s,h0(x(pk(skb)),Y))) :- attacker(penc(L,pk(ska))), attacker(mac(Y,g(x(pk(skb))),pk(skb),pk(ska),k0(ka(pk(skb)),L))).
% message 4 from B, who means A
attacker(senc(s,h1(X,y(pk(ska),g(X))))) :- attacker(penc(t2(K,pk(ska)),pk(skb))), attacker(mac(g(X),g(y(pk(ska),g(X))),pk(ska),pk(skb),k0(K,kb(pk(ska),K)))).
attacker(senc(s,h1(y(pk(ska),g(X)),X))) :- attacker(penc(t2(K,pk(ska)),pk(skb))), attacker(mac(g(X),g(y(pk(ska),g(X))),pk(ska),pk(skb),k0(K,kb(pk(ska),K)))).
attacker(senc(s,h0(y(pk(ska),X),X))) :- attacker(penc(t2(K,pk(ska)),pk(skb))), attacker(mac(X,g(y(pk(ska),X)),pk(ska),pk(skb),k0(K,kb(pk(ska),K)))).

?- attacker(s).
