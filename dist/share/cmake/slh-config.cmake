# What find_package(slh) reads. It stands in PREFIX/lib/cmake/slh, or in Debian's PREFIX/lib/MACHINE/cmake/slh, and finds
# the library by where it stands itself.
#
#   slh::slh      all calls, as an archive
#   slh::shared   all calls, as a shared object or a DLL, where one is installed
#   slh::verify   the calls of slh_verify.h alone, as an archive, for firmware
#   slh::portable all calls as portable C, which is compiled with the program, where tools/library.sh has put that
cmake_minimum_required(VERSION 3.13)

get_filename_component(_slh_lib "${CMAKE_CURRENT_LIST_DIR}/../.." REALPATH)
get_filename_component(_slh_include "${_slh_lib}/../include" ABSOLUTE)
if(NOT EXISTS "${_slh_include}/slh.h")
    get_filename_component(_slh_include "${_slh_lib}/../../include" ABSOLUTE)
endif()

# Declares the library `name` of the file `file`, where that is installed.
function(_slh_library name kind file)
    if(EXISTS "${_slh_lib}/${file}" AND NOT TARGET slh::${name})
        add_library(slh::${name} ${kind} IMPORTED)
        set_target_properties(
            slh::${name}
            PROPERTIES IMPORTED_LOCATION "${_slh_lib}/${file}"
                       IMPORTED_LINK_INTERFACE_LANGUAGES C
                       INTERFACE_INCLUDE_DIRECTORIES "${_slh_include}"
        )
    endif()
endfunction()

_slh_library(slh STATIC libslh.a)
_slh_library(verify STATIC libslh_verify.a)
_slh_library(shared SHARED libslh.so.1)
_slh_library(shared SHARED ../bin/slh.dll)
if(TARGET slh::shared)
    set_target_properties(
        slh::shared PROPERTIES IMPORTED_SONAME libslh.so.1 IMPORTED_IMPLIB "${_slh_lib}/slh.lib"
    )
endif()

set(_slh_source "${_slh_lib}/../src/slh.c")
if(EXISTS "${_slh_source}" AND NOT TARGET slh::portable)
    add_library(slh_portable STATIC EXCLUDE_FROM_ALL "${_slh_source}")
    target_include_directories(slh_portable PUBLIC "${_slh_include}")
    set_target_properties(slh_portable PROPERTIES C_STANDARD 11 POSITION_INDEPENDENT_CODE ON)
    add_library(slh::portable ALIAS slh_portable)
endif()

# A component is a target's name: find_package(slh COMPONENTS shared).
set(slh_FOUND TRUE)
foreach(_slh_name IN LISTS slh_FIND_COMPONENTS)
    if(TARGET slh::${_slh_name})
        set(slh_${_slh_name}_FOUND TRUE)
    else()
        set(slh_${_slh_name}_FOUND FALSE)
        if(slh_FIND_REQUIRED_${_slh_name})
            set(slh_FOUND FALSE)
            set(slh_NOT_FOUND_MESSAGE "slh::${_slh_name} is not installed in ${_slh_lib}")
        endif()
    endif()
endforeach()
unset(_slh_name)
unset(_slh_source)
unset(_slh_include)
unset(_slh_lib)
