# A match that is left out without a callback is not told, nor one that a token's callback leaves
# out.
/^token 0 /d
/^token 12 /d
/^token 14 /d
/^token 17 /d
# Some callbacks answer with an error of their own.
s/^token 4 /error /
s/^token 11 /error /
s/^token 15 /error /
t
# Others have the error made, as it is made where nothing matches.
s/^token 7 /error /
s/^token 9 /error /
s/^error \(.*\)/made \1\n&/
