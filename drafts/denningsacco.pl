% Denning-Sacco key distribution, simplified (Denning and Sacco 1981; rules of Blanchet 2001, Figure 2)
%   1. A -> B: {{k}skA}pkB
%   2. B -> A: {s}k
% Certificates and time stamps are left out. A talks to whoever owns the key
% it is told; k is a function of that key. The second message carries the secret.
% literature: attack   B can't tell for whom A signed k (Abadi and Needham 1996, Burrows, Abadi and Needham 1989)
% answer: derivable 32 3 9

% the attacker computes
attacker(pencrypt(M,Pk)) :- attacker(M), attacker(Pk).
attacker(pk(Sk)) :- attacker(Sk).
attacker(M) :- attacker(pencrypt(M,pk(Sk))), attacker(Sk).
attacker(sign(M,Sk)) :- attacker(M), attacker(Sk).
attacker(M) :- attacker(sign(M,Sk)).
attacker(sencrypt(M,K)) :- attacker(M), attacker(K).
attacker(M) :- attacker(sencrypt(M,K)), attacker(K).

% the attacker knows at the start
attacker(pk(ska)).
attacker(pk(skb)).
attacker(a).

% message 1, message 2
attacker(pencrypt(sign(k(pk(X)),ska),pk(X))) :- attacker(pk(X)).
attacker(sencrypt(s,K)) :- attacker(pencrypt(sign(K,ska),pk(skb))).

?- attacker(s).
