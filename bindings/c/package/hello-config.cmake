# find_package(hello) gives the targets hello::hello (the shared library) and hello::static (the archives).
get_filename_component(_hello_prefix "${CMAKE_CURRENT_LIST_DIR}/../../.." ABSOLUTE)
if(NOT TARGET hello::hello)
  add_library(hello::hello SHARED IMPORTED)
  set_target_properties(
    hello::hello
    PROPERTIES IMPORTED_LOCATION "${_hello_prefix}/lib/libhello.so"
               IMPORTED_SONAME "libhello.so.0"
               INTERFACE_INCLUDE_DIRECTORIES "${_hello_prefix}/include")
  add_library(hello::static STATIC IMPORTED)
  set_target_properties(
    hello::static
    PROPERTIES IMPORTED_LOCATION "${_hello_prefix}/lib/libhello.a"
               INTERFACE_INCLUDE_DIRECTORIES "${_hello_prefix}/include"
               INTERFACE_LINK_LIBRARIES "${_hello_prefix}/lib/libclass_bench.a")
endif()
unset(_hello_prefix)
