let n = 0;
print("counting");
while (true) n++;
