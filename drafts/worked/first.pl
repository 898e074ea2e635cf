% The first worked draft: a secret under a key that the attacker has.
attacker(a).
attacker(senc(s, k)).
attacker(M) :- attacker(senc(M, X)), attacker(X).
attacker(k).
?- attacker(s).
