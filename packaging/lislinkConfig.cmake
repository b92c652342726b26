# find_package(lislink), for C and C++: lislink::lislink is the shared library, lislink::static the archive.
foreach(kind lislink static)
  if(NOT TARGET lislink::${kind})
    if(kind STREQUAL "static")
      add_library(lislink::static STATIC IMPORTED)
      set(file liblislink.a)
    else()
      add_library(lislink::lislink SHARED IMPORTED)
      set(file liblislink.so.1)
    endif()
    set_target_properties(lislink::${kind} PROPERTIES
      IMPORTED_LOCATION "@LIBDIR@/${file}"
      INTERFACE_INCLUDE_DIRECTORIES "@PREFIX@/include")
  endif()
endforeach()
unset(file)
