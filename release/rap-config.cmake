# The lossless parser of Rust: `rap::rap` is the shared library, and `rap::static` the static one.
get_filename_component(_rap_libraries "${CMAKE_CURRENT_LIST_DIR}/../.." REALPATH)
get_filename_component(_rap_include "${_rap_libraries}/@INCLUDE@" REALPATH)
if(NOT TARGET rap::rap)
  add_library(rap::rap SHARED IMPORTED)
  set_target_properties(rap::rap PROPERTIES
    IMPORTED_LOCATION "${_rap_libraries}/librap.so" IMPORTED_SONAME "librap.so.0"
    INTERFACE_INCLUDE_DIRECTORIES "${_rap_include}")
  add_library(rap::static STATIC IMPORTED)
  set_target_properties(rap::static PROPERTIES
    IMPORTED_LOCATION "${_rap_libraries}/librap.a" IMPORTED_LINK_INTERFACE_LANGUAGES "C"
    INTERFACE_INCLUDE_DIRECTORIES "${_rap_include}")
endif()
unset(_rap_libraries)
unset(_rap_include)
