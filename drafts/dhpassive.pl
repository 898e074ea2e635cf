% Diffie-Hellman key agreement, attacker listens only (Diffie and Hellman 1976; coding of Blanchet 2001, 5.4)
%   1. A -> B: g(x0)
%   2. B -> A: g(x1)
%   3. A -> B: {s}f(x0, g(x1))     (added; B sends the like under f(x1, g(x0)))
% f(Y, g(X)) = f(X, g(Y)) is coded by a destructor f with three results: of f(Y, g(X))
% either h1(X,Y) or h1(Y,X), and h0(Y, g(X)). Each use of f is a rule for each
% result. A and B take only each other's halves: the network is watched, not altered.
% literature: secret   the halves don't give the key away without x0 or x1
% answer: secret 36 1 0
% sanity: reached attacker(senc(s,h1(x0,x1)))
% sanity: leak attacker(x1)

attacker(senc(M,K)) :- attacker(M), attacker(K).
attacker(M) :- attacker(senc(M,K)), attacker(K).
attacker(g(X)) :- attacker(X).
attacker(h0(X,Y)) :- attacker(X), attacker(Y).
attacker(h1(X,Y)) :- attacker(X), attacker(Y).
% f applied by the attacker (its third result is the rule of h0 above)
attacker(h1(X,Y)) :- attacker(Y), attacker(g(X)).
attacker(h1(X,Y)) :- attacker(X), attacker(g(Y)).

attacker(a).

attacker(g(x0)).
attacker(g(x1)).
% message 3 from A
attacker(senc(s,h1(x1,x0))) :- attacker(g(x1)).
attacker(senc(s,h1(x0,x1))) :- attacker(g(x1)).
attacker(senc(s,h0(x0,g(x1)))) :- attacker(g(x1)).
% message 3 from B
attacker(senc(s,h1(x0,x1))) :- attacker(g(x0)).
attacker(senc(s,h1(x1,x0))) :- attacker(g(x0)).
attacker(senc(s,h0(x1,g(x0)))) :- attacker(g(x0)).

?- attacker(s).
