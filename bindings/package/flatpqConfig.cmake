# Gives the targets flatpq::flatpq, the static archive, and flatpq::shared, the shared library.
include(CMakeFindDependencyMacro)
set(THREADS_PREFER_PTHREAD_FLAG ON)
find_dependency(Threads)
get_filename_component(flatpq_PREFIX "${CMAKE_CURRENT_LIST_DIR}/@UP@" ABSOLUTE)
if(NOT TARGET flatpq::flatpq)
  add_library(flatpq::flatpq STATIC IMPORTED)
  add_library(flatpq::shared SHARED IMPORTED)
  set_target_properties(flatpq::flatpq PROPERTIES IMPORTED_LOCATION "${flatpq_PREFIX}/@LIBDIR@/libflatpq.a")
  set_target_properties(flatpq::shared PROPERTIES
    IMPORTED_LOCATION "${flatpq_PREFIX}/@LIBDIR@/@SONAME@" IMPORTED_SONAME "@SONAME@")
  set_target_properties(flatpq::flatpq flatpq::shared PROPERTIES
    INTERFACE_INCLUDE_DIRECTORIES "${flatpq_PREFIX}/include" INTERFACE_LINK_LIBRARIES Threads::Threads)
  # A shared object that takes the archive shows none of its names.
  set_target_properties(flatpq::flatpq PROPERTIES INTERFACE_LINK_OPTIONS "-Wl,--exclude-libs,libflatpq.a")
endif()
