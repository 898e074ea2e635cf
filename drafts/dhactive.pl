% Diffie-Hellman key agreement, attacker in the middle (Diffie and Hellman 1976; coding of Blanchet 2001, 5.4)
%   1. A -> B: g(x0)
%   2. B -> A: g(x1)
%   3. A -> B: {s}f(x0, g(x1))     (added; B sends the like under f(x1, g(x0)))
% As dhpassive.pl, but A and B take whatever half arrives.
% literature: attack   the halves aren't authenticated: the attacker sends g of its own number
% answer: derivable 43 3 6

attacker(senc(M,K)) :- attacker(M), attacker(K).
attacker(M) :- attacker(senc(M,K)), attacker(K).
attacker(g(X)) :- attacker(X).
attacker(h0(X,Y)) :- attacker(X), attacker(Y).
attacker(h1(X,Y)) :- attacker(X), attacker(Y).
attacker(h1(X,Y)) :- attacker(Y), attacker(g(X)).
attacker(h1(X,Y)) :- attacker(X), attacker(g(Y)).

attacker(a).

attacker(g(x0)).
attacker(g(x1)).
% message 3 from A
attacker(senc(s,h1(Y,x0))) :- attacker(g(Y)).
attacker(senc(s,h1(x0,Y))) :- attacker(g(Y)).
attacker(senc(s,h0(x0,Y))) :- attacker(Y).
% message 3 from B
attacker(senc(s,h1(Y,x1))) :- attacker(g(Y)).
attacker(senc(s,h1(x1,Y))) :- attacker(g(Y)).
attacker(senc(s,h0(x1,Y))) :- attacker(Y).

?- attacker(s).
