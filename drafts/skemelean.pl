% Skeme, main mode, coded with less (Krawczyk 1996)
%   1. A -> B: {Ka, A}pkB, g(x)
%   2. B -> A: {Kb}pkA, g(y), mac((g(y), g(x), B, A), K0)      with K0 = k0(Ka, Kb)
%   3. A -> B: mac((g(x), g(y), A, B), K0)
%   4. A -> B: {s}f(x, g(y))       (added; B sends the like under f(y, g(x)))
% As skeme.pl, but penc(M,H) is M under host H's public key and sk(H) the key to it;
% hc is the attacker's host. A and B take only halves of the form g(..), and of the
% results of f they use the one with A's number first; the attacker uses both orders.
% literature: secret   secure (Blanchet 2001, Figure 5)
% answer: secret 497 1 0
% sanity: reached attacker(senc(s,h1(x(hb),y(ha,g(x(hb))))))
% sanity: leak attacker(x(hb))

attacker(penc(M,H)) :- attacker(M), attacker(H).
attacker(M) :- attacker(penc(M,H)), attacker(sk(H)).
attacker(senc(M,K)) :- attacker(M), attacker(K).
attacker(M) :- attacker(senc(M,K)), attacker(K).
attacker(t2(X,Y)) :- attacker(X), attacker(Y).
attacker(X) :- attacker(t2(X,Y)).
attacker(Y) :- attacker(t2(X,Y)).
attacker(mac(X,Y,Z,W,K)) :- attacker(X), attacker(Y), attacker(Z), attacker(W), attacker(K).
attacker(k0(X,Y)) :- attacker(X), attacker(Y).
attacker(g(X)) :- attacker(X).
attacker(h1(X,Y)) :- attacker(X), attacker(Y).
attacker(h1(X,Y)) :- attacker(Y), attacker(g(X)).
attacker(h1(X,Y)) :- attacker(X), attacker(g(Y)).

attacker(ha).
attacker(hb).
attacker(hc).
attacker(sk(hc)).

% message 1
attacker(penc(t2(ka(H),ha),H)) :- attacker(H).
attacker(g(x(H))) :- attacker(H).
% message 2, its three parts
attacker(penc(kb(H,K),H)) :- attacker(penc(t2(K,H),hb)).
attacker(g(y(H,X))) :- attacker(H), attacker(X).
attacker(mac(g(y(H,X)),X,hb,H,k0(K,kb(H,K)))) :- attacker(X), attacker(penc(t2(K,H),hb)).
% message 3
attacker(mac(g(x(H)),Y,ha,H,k0(ka(H),L))) :- attacker(penc(L,ha)), attacker(mac(Y,g(x(H)),H,ha,k0(ka(H),L))).
% message 4 from A, who means B
attacker(senc(s,h1(x(hb),Y))) :- attacker(penc(L,ha)), attacker(mac(g(Y),g(x(hb)),hb,ha,k0(ka(hb),L))).
% message 4 from B, who means A
attacker(senc(s,h1(X,y(ha,g(X))))) :- attacker(penc(t2(K,ha),hb)), attacker(mac(g(X),g(y(ha,g(X))),ha,hb,k0(K,kb(ha,K)))).

?- attacker(s).
