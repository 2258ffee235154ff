# The library mlir_work for CMake. The targets are mlir_work::mlir_work, which links the archive, and mlir_work::shared,
# if there is a shared library. Both have the headers for C and C++.
get_filename_component(_prefix "${CMAKE_CURRENT_LIST_DIR}/../../.." ABSOLUTE)
if(NOT TARGET mlir_work::mlir_work)
  add_library(mlir_work::mlir_work STATIC IMPORTED)
  set_target_properties(mlir_work::mlir_work PROPERTIES
    IMPORTED_LOCATION "${_prefix}/lib/libmlir_work.a"
    INTERFACE_INCLUDE_DIRECTORIES "${_prefix}/include")
endif()
if(NOT TARGET mlir_work::shared AND EXISTS "${_prefix}/lib/libmlir_work.so")
  add_library(mlir_work::shared SHARED IMPORTED)
  set_target_properties(mlir_work::shared PROPERTIES
    IMPORTED_LOCATION "${_prefix}/lib/libmlir_work.so"
    INTERFACE_INCLUDE_DIRECTORIES "${_prefix}/include")
endif()
unset(_prefix)
