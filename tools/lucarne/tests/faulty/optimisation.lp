{ a; b }.
#minimize { 1,a : a; 2,b : b }.
