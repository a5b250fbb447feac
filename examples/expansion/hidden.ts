shared a, light;
proc set(light)
  a = light + light();
end proc
light = 3;
do set(light);
