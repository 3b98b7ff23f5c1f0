module words
  implicit none
  type :: counter
    integer :: count = 0
  end type counter
contains
  function counted(text) result(count)
    character(len=*), intent(in) :: text
    integer :: count, at
    count = 0
    do at = 1, len(text)
      if (text(at:at) == ' ') count = count + 1
    end do
  end function counted
end module words

program main
  use words
  implicit none
  type(counter) :: it
  it%count = counted('a rose is a rose')
  print *, it%count
end program main
