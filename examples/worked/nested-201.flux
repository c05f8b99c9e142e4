# Rows nested 201 deep: the last would start at depth 201, which is Depth.

from ()
to ()

fuel check 4096, run 200

script
  left [ left [ left [ left [ left [ left [ left [ left [ left [ left [ left [ left [ left [ left [ left [ left [
  left [ left [ left [ left [ left [ left [ left [ left [ left [ left [ left [ left [ left [ left [ left [ left [
  left [ left [ left [ left [ left [ left [ left [ left [ left [ left [ left [ left [ left [ left [ left [ left [
  left [ left [ left [ left [ left [ left [ left [ left [ left [ left [ left [ left [ left [ left [ left [ left [
  left [ left [ left [ left [ left [ left [ left [ left [ left [ left [ left [ left [ left [ left [ left [ left [
  left [ left [ left [ left [ left [ left [ left [ left [ left [ left [ left [ left [ left [ left [ left [ left [
  left [ left [ left [ left [ left [ left [ left [ left [ left [ left [ left [ left [ left [ left [ left [ left [
  left [ left [ left [ left [ left [ left [ left [ left [ left [ left [ left [ left [ left [ left [ left [ left [
  left [ left [ left [ left [ left [ left [ left [ left [ left [ left [ left [ left [ left [ left [ left [ left [
  left [ left [ left [ left [ left [ left [ left [ left [ left [ left [ left [ left [ left [ left [ left [ left [
  left [ left [ left [ left [ left [ left [ left [ left [ left [ left [ left [ left [ left [ left [ left [ left [
  left [ left [ left [ left [ left [ left [ left [ left [ left [ left [ left [ left [ left [ left [ left [ left [
  left [ left [ left [ left [ left [ left [ left [ left [
  skip
  ]]]]]]]]]]]]]]]]]]]]]]]]]]]]]]]]]]]]]]]]]]]]]]]]]]]]]]]]]]]]]]]]]]]]]]]]]]]]]]]]]]]]]]]]]]]]]]]]
  ]]]]]]]]]]]]]]]]]]]]]]]]]]]]]]]]]]]]]]]]]]]]]]]]]]]]]]]]]]]]]]]]]]]]]]]]]]]]]]]]]]]]]]]]]]]]]]]]
  ]]]]]]]]
